"""What goes on in a process of its own beside an attack: the attack, members that hold their sessions, and a probe.

Moments are those of the monotonic clock, which is one for all processes.
"""
import contextlib
import multiprocessing
import struct
import time

from peers.speaker import attribute, attributes, update

from .members import Listener, Member, announced, come_up, lost, next_hop, number, speak

FORK = multiprocessing.get_context("fork")
PROBED = b"\x18" + bytes([203, 0, 113])


class Beside:
    """`work(over, say, *words)` in a process of its own: `say` tells that it is ready, `over` is set once it shall end, and
    what it answers is what it saw."""

    def __init__(self, work, *words, **more):
        self.over = FORK.Event()
        self.here, there = FORK.Pipe()
        self.process = FORK.Process(target=self.run, args=(there, work, words, more), daemon=True)
        self.process.start()

    def run(self, there, work, words, more):
        try:
            there.send(work(self.over, lambda: there.send("ready"), *words, **more))
        except Exception as fault:
            there.send(fault)

    def heard(self, seconds):
        """The next thing that it says."""
        if not self.here.poll(seconds):
            raise OSError(f"no word in {seconds:.0f} seconds")
        said = self.here.recv()
        if isinstance(said, Exception):
            raise said
        return said

    def ready(self, seconds=60):
        self.heard(seconds)
        return self

    def is_done(self):
        """Whether it has ended by itself."""
        return self.here.poll()

    def end(self, seconds=60):
        """Ends it, and answers what it saw."""
        self.over.set()
        try:
            return self.heard(seconds)
        finally:
            self.process.join(2)
            self.process.kill()


class Waits:
    """How long changes took: each a moment, seconds, and whether it came."""

    def __init__(self, changes, ended):
        self.changes, self.ended = changes, ended

    def between(self, first, last=float("inf")):
        """The seconds of those that began then, in order; one that never came counts as long as it was waited for."""
        return sorted(took for began, took, _ in self.changes if first <= began < last)


def quantile(values, part):
    """The value below which this part of them lies; infinite where there is none."""
    return sorted(values)[min(len(values) - 1, int(part * len(values)))] if values else float("inf")


def told_all(members, most=90, still=1):
    """Waits until these members are told nothing for a second, so that what they are owed as they come up is no part of what follows."""
    until, told = time.monotonic() + most, None
    while time.monotonic() < until and told != (now := [it.octets for it in members]):
        told = now
        speak(members, still)


def probe(over, say, place, hold=90, pause=0.05):
    """Member 0 changes a prefix again and again, and member 1 waits for it: Waits. It is ready once both have all that others announced."""
    speaking, listening = come_up([Member(place, 0, hold), Listener(place, 1, hold)], 60)
    told_all([speaking, listening])
    say()
    changes, count = [], 0
    while not over.is_set() and not (speaking.ended or listening.ended):
        count += 1
        listening.mark, listening.has_heard = b"PROBE" + struct.pack(">I", count) + b"END", False
        field = attributes([number(0)], next_hop(0)) + attribute(0xC0, 32, listening.mark)
        speaking.out += update(field=field, nlri=PROBED)
        began = time.monotonic()
        while not (listening.has_heard or over.is_set() or speaking.ended or listening.ended):
            speak([speaking, listening], 0.2, lambda: listening.has_heard)
        changes.append((began, time.monotonic() - began, listening.has_heard))
        speak([speaking, listening], began + pause - time.monotonic())
    return Waits(changes, lost([speaking, listening]))


def witnesses(over, say, place, first, count, routes=0, hold=90, each=3):
    """Members that hold their sessions and announce so many routes: how many were lost, by how."""
    members = come_up([Member(place, at, hold) for at in range(first, first + count)], 60)
    for at, it in enumerate(members):
        it.out += announced(it.at, at * routes, routes, each)
    speak(members, 120, lambda: not any(it.out for it in members))
    say()
    while not over.is_set():
        speak(members, 0.3)
    return lost(members)


@contextlib.contextmanager
def working(*them):
    """These processes, ended with the block whatever comes."""
    try:
        yield them
    finally:
        for it in them:
            it.process.kill()
