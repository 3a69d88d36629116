"""Hold timers: a server that stands still, or that is sent more than it hears, ends no session of those that speak in time."""
import os
import signal
import time

from peers.speaker import KEEPALIVE, message

from .members import Member, announced, come_up, lost, speak
from .playing import Seen, counted
from .targets import Exchange


def late(members):
    """The longest that a member of ours has gone without sending, as far as it is known: its own fault, not the server's."""
    return max(time.monotonic() - it.beat for it in members)


def stall(target, members, seconds, hold=9):
    """The server is stopped for some seconds, as a machine's pause would, while its members send KEEPALIVEs."""
    gap = 0.0
    with Exchange(target, members + 10, hold) as exchange:
        honest = come_up([Member(exchange.place, at, hold) for at in range(10, 10 + members)])
        speak(honest, 2)
        for sent in (signal.SIGSTOP, signal.SIGCONT):
            for pid in exchange.pids():
                os.kill(pid, sent)
            until = time.monotonic() + (seconds if sent == signal.SIGSTOP else 3)
            while time.monotonic() < until:
                speak(honest, 0.5)
                gap = max(gap, late([it for it in honest if not it.ended] or honest))
        ended = lost(honest)
    if gap > hold * 0.8 and ended:
        raise OSError(f"the members themselves were {gap:.0f} s late")
    return Seen({"lost": sum(ended.values())}, f"{counted(ended)} of {members} lost, {seconds:g} s")


def stalls(target, members, times):
    """The server is stopped for each of these times, one after the other."""
    seen = [stall(target, members, it) for it in times]
    return Seen({"lost": sum(it.figures["lost"] for it in seen)}, "; ".join(it.words for it in seen))


class Pouring(Member):
    """A member that sends the same again and again, with KEEPALIVEs in it."""

    def __init__(self, *words, **more):
        self.octets_sent, self.texts, self.turn = 0, (), 0
        super().__init__(*words, **more)

    def pour(self):
        """Keeps what is to be sent from running out."""
        if self.is_up and len(self.out) < 65_536:
            self.turn += 1
            self.out += self.texts[self.turn % 2]
            self.octets_sent += len(self.texts[0])


def storm(target, members, seconds, routes=500, hold=9):
    """So many members announce their routes anew without end, each with its KEEPALIVEs between; one more sends KEEPALIVEs alone."""
    with Exchange(target, members + 11, hold) as exchange:
        quiet, them = Member(exchange.place, 9, hold), [Pouring(exchange.place, at, hold) for at in range(10, 10 + members)]
        come_up([quiet, *them], 60)
        for it in them:
            it.texts = [message(KEEPALIVE) + announced(it.at, it.at * routes, routes, 5, seed) for seed in (1, 2)]
        until = time.monotonic() + seconds
        while time.monotonic() < until:
            for it in them:
                it.pour()
            speak([quiet, *them], 0.1)
        ended = lost([quiet, *them])
        sent = sum(it.octets_sent for it in them) >> 20
    return Seen({"lost": sum(ended.values())}, f"{counted(ended)} of {members + 1} lost, {sent} MB sent in {seconds} s")
