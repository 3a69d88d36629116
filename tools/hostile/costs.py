"""What one member can make the others wait for: the wait of single changes between two others, and the server's processor time."""
import contextlib
import os
import signal
import socket
import time

from peers.speaker import KEEPALIVE, ROUTE_REFRESH, attribute, attributes, message, update

from .beside import Beside, probe, quantile, witnesses, working
from .members import REFRESH, Counting, Member, announced, come_up, next_hop, number, slash24, slash24s, speak, withdrawn
from .playing import Seen, shown
from .targets import Exchange

# Attributes whose octets end a block with this have one sum in the hash by which rs_outlet puts slots in order first, whatever its key.
CHOSEN = (0x9E3779B97F4A7C15).to_bytes(8, "little")
ATTACKER = 2
# Honest members have places from 10 on; members that come up late from here on.
LATE = 40
# A community, and the rules that take it out of each route.
TAKEN, TAKING = bytes.fromhex("fbf40001"), 'export = [ { action = "pass", strip = ["64500:1"] } ]\n'
# Prefixes of attackers: the first is out of all honest members' reach.
FAR = 1_000_000


def beside_routes(exchange, stack, count, routes, each=3):
    """So many honest members with so many routes each, and a probe beside them; all is told before this ends."""
    honest = Beside(witnesses, exchange.place, 10, count, routes, each=each)
    stack.append(honest)
    honest.ready(150)
    exchange.settle()
    probing = Beside(probe, exchange.place)
    stack.append(probing)
    return honest, probing.ready(120)


class Attack:
    """An attack beside honest members of `routes` routes each: the waits of changes before and during it, and the sessions lost.

    With `ready`, the attacker has so many seconds to come up and to be told all, which is part of neither. `more` is for the
    attack alone.
    """

    def __init__(self, exchange, attack, seconds, members, routes, each=3, before=4, ready=0, **more):
        stack, self.samples = [], []
        try:
            honest, probing = beside_routes(exchange, stack, members, routes, each)
            self.sample(exchange, before)
            self.first = calm = time.monotonic()
            hostile = Beside(attack, exchange.place, **more)
            stack.append(hostile)
            if ready:
                hostile.ready(ready)
                self.first = time.monotonic()
            self.sample(exchange, seconds, hostile.is_done)
            self.last = time.monotonic()
            self.seen = hostile.end()
            time.sleep(2)
            self.waits = probing.end()
            self.lost = sum(honest.end().values()) + sum(self.waits.ended.values())
        finally:
            for it in stack:
                it.process.kill()
        self.before, self.during = self.waits.between(0, calm), self.waits.between(self.first, self.last)

    def sample(self, exchange, seconds, done=lambda: False):
        """Notes the server's processor time now and then, for so many seconds."""
        until = time.monotonic() + seconds
        while time.monotonic() < until and exchange.is_alive() and not done():
            self.samples.append((time.monotonic(), exchange.seconds()))
            time.sleep(0.1)

    def a_change(self, first, last):
        """Processor seconds of the server by each change between these moments."""
        found = [it for it in self.samples if first <= it[0] < last]
        changes = len(self.waits.between(found[0][0], found[-1][0]))
        return (found[-1][1] - found[0][1]) / max(1, changes)


def alike(at, count, chosen=True, more=b""):
    """UPDATEs of so many prefixes, each with attributes of its own that share one hash where they are chosen so, and these communities."""
    path, out = attributes([number(at)], next_hop(at)), []
    for one in range(count):
        value = bytes(5) + (one + 1).to_bytes(8, "little") + (CHOSEN if chosen else bytes(8)) + bytes(19)
        out.append(update(field=path + attribute(0xC0, 8, value + more), nlri=slash24(FAR + one)))
    return b"".join(out)


def come_late(over, say, place, owed, chosen, more, late, most):
    """A member announces such routes; then others come up who are owed them all: how long each waited for them."""
    first = come_up([Member(place, ATTACKER)])[0]
    first.out += alike(ATTACKER, owed, chosen, more)
    speak([first], most, lambda: not first.out)
    speak([first], 3)
    took = []
    for at in range(late):
        it, began = Counting(place, LATE + at), time.monotonic()
        it.mark = attribute(0x40, 3, socket.inet_aton(next_hop(ATTACKER)))
        speak([first, it], most, lambda: it.ended or over.is_set() or it.count >= owed)
        took.append(time.monotonic() - began if it.count >= owed else float("inf"))
        it.close()
    return took


def chains(target, routes, late, most, members, base, ruled):
    """Attributes that differ in a harmless way, then those with one hash: the same shall be as fast. Where wanted, ours plays it also
    with rules that take a community out of each route, so that what they leave shares one hash."""
    figures, words, spans = {"lost": 0}, [], []
    plays = [("plain", False, b"", ""), ("chosen", True, b"", "")]
    if ruled and target.name == "ours":
        plays += [("plain stripped", False, TAKEN, TAKING), ("chosen stripped", True, TAKEN, TAKING)]
    for name, chosen, more, rules in plays:
        with Exchange(target, 64, each=rules) as exchange:
            lasts = (late + 1) * most + 20
            seen = Attack(exchange, come_late, lasts, members, base, before=2, owed=routes, chosen=chosen, more=more, late=late, most=most)
        figures[name + " wait"], figures[name + " late"] = max(seen.during), max(seen.seen)
        figures["lost"] += seen.lost
        spans.append((name, seen.first, seen.last))
        words.append(f"{name}: a change waits up to {shown(max(seen.during))}, late members {shown(max(seen.seen))}")
        most = min(most, 10 + 4 * max(seen.seen))
    return Seen(figures, "; ".join(words), spans)


def told_most(it, most=60, little=65536):
    """Waits until a member is told little within a second: what it is owed as it comes up, but for changes of others, is told then."""
    until, told = time.monotonic() + most, -little
    while time.monotonic() < until and it.octets - told >= little:
        told = it.octets
        speak([it], 1)


def flood(over, say, place, reads):
    """ROUTE-REFRESH without end, by a member that reads what comes of it or doesn't; how many were sent."""
    it = come_up([Member(place, ATTACKER, capabilities=REFRESH)])[0]
    told_most(it)
    say()
    requests, sent = message(ROUTE_REFRESH, b"\0\1\0\1") * 100 + message(KEEPALIVE), 0
    while not (over.is_set() or it.ended):
        if not it.out:
            it.out += requests
            sent += 100
        speak([it], 0.05, lambda: not it.out, reads)
    return sent


def burst(over, say, place, requests):
    """So many ROUTE-REFRESH at once."""
    it = come_up([Member(place, ATTACKER, capabilities=REFRESH)])[0]
    told_most(it)
    say()
    it.out += message(ROUTE_REFRESH, b"\0\1\0\1") * requests
    while not over.is_set():
        speak([it], 0.3)
    return requests


def refreshes(target, members, routes, seconds, deaf, many):
    """A flood of ROUTE-REFRESH beside such routes; where wanted also by a member that reads nothing, and one burst beside many."""
    plays = [("flood", flood, routes, 3, {"reads": True})]
    plays += [("deaf flood", flood, routes, 3, {"reads": False})] if deaf else []
    plays += [("178 at once", burst, many, 50, {"requests": 178})] if many else []
    figures, words, spans = {"lost": 0, "over": float("-inf")}, [], []
    for name, attack, each, share, more in plays:
        with Exchange(target, 64, top={"ours": "refresh = true"}) as exchange:
            seen = Attack(exchange, attack, seconds, members, each, share, seconds / 2, ready=100, **more)
        calm, now = quantile(seen.before, 0.99), quantile(seen.during, 0.99)
        figures["lost"] += seen.lost
        figures["over"] = max(figures["over"], now - 2 * calm)
        spans.append((name, seen.first, seen.last))
        words.append(f"{name} beside {members * each:,} routes: p99 {shown(calm)}, then {shown(now)}, greatest {shown(max(seen.during))}")
    return Seen(figures, "; ".join(words), spans)


def flaps(over, say, place):
    """A member comes up and closes, over and over: how often it was up."""
    count = 0
    while not over.is_set():
        try:
            it = Member(place, ATTACKER)
        except OSError:
            time.sleep(0.01)
            continue
        speak([it], 2, lambda: it.is_up or it.ended)
        count += it.is_up
        it.close(at_once=True)
        time.sleep(0.002)
    return count


def flapping(target, members, routes, seconds):
    """A session that flaps beside such routes."""
    with Exchange(target, 64) as exchange:
        seen = Attack(exchange, flaps, seconds, members, routes)
    middle = quantile(seen.during, 0.5)
    words = f"p50 {shown(middle)}, p99 {shown(quantile(seen.during, 0.99))} ({shown(quantile(seen.before, 0.5))} before), {seen.seen} flaps"
    return Seen({"middle": middle, "lost": seen.lost}, words, [("flaps", seen.first, seen.last)])


def beats(exchange, member, others, count):
    """Processor seconds of the server for each of so many KEEPALIVEs, one at a time."""
    used = exchange.seconds()
    for _ in range(count):
        member.out += message(KEEPALIVE)
        speak([member], 0.004)
    speak([member, *others], 0.1)
    return (exchange.seconds() - used) / count


def given_up(target, members, prefixes, count):
    """Prefixes that were announced and withdrawn once beside so many members: what a turn costs before and after."""
    with Exchange(target, members + 10) as exchange:
        them = come_up([Member(exchange.place, at) for at in range(10, 10 + members)], 60)
        speak(them, 2)
        before = [beats(exchange, them[0], them, count) for _ in range(3)]
        them[0].out += announced(10, FAR, prefixes, 3)
        speak(them, 60, lambda: not them[0].out)
        speak(them, 2)
        them[0].out += withdrawn(FAR, prefixes)
        speak(them, 60, lambda: not them[0].out)
        idle(exchange, them)
        after = [beats(exchange, them[0], them, count) for _ in range(3)]
    return Seen({"before": min(before), "after": min(after)}, f"{shown(min(before))} a round before, {shown(min(after))} after")


@contextlib.contextmanager
def stopped(exchange):
    """The server stands still in this block; after it what came meanwhile is there at once."""
    for pid in exchange.pids():
        os.kill(pid, signal.SIGSTOP)
    try:
        yield
    finally:
        for pid in exchange.pids():
            os.kill(pid, signal.SIGCONT)


def shortest(count):
    """So many different prefixes in as few octets as may be: those of up to 8 bits, then of 16 from 100.0.0.0 on."""
    short = [bytes([bits, *([top << (8 - bits)] if bits else [])]) for bits in range(9) for top in range(1 << bits)]
    return (short + [b"\x10" + (0x6400 + at).to_bytes(2, "big") for at in range(count)])[:count]


def changed(exchange, speaking, listening, prefixes, turn):
    """So many short prefixes of a member anew at once: how long until another was told of all, and the server's processor time."""
    listening.mark, listening.count = b"TOLD" + turn.to_bytes(4, "big") + b"LAST", 0
    field = attributes([number(speaking.at), 1000 + turn], next_hop(speaking.at)) + attribute(0xC0, 32, listening.mark)
    with stopped(exchange):
        them = shortest(prefixes)
        for begin in range(0, prefixes, 1300):
            speaking.out += update(field=field, nlri=b"".join(them[begin : begin + 1300]))
        speak([speaking], 0.1, reading=False)
        began, used = time.monotonic(), exchange.seconds()
    speak([speaking, listening], 20, lambda: listening.count >= prefixes)
    took = time.monotonic() - began if listening.count >= prefixes else float("inf")
    speak([speaking, listening], 0.3)
    return took, exchange.seconds() - used


def wide(target, members, routes, few, many, turns):
    """A member touches a few prefixes, then a few more, beside the routes of all members."""
    with Exchange(target, members + 20) as exchange, working(Beside(witnesses, exchange.place, 10, members, routes, each=50)) as (honest,):
        honest.ready(150)
        exchange.settle()
        them = come_up([Member(exchange.place, 0), Counting(exchange.place, 1)])
        speak(them, 5)
        exchange.settle()
        took = {it: [changed(exchange, *them, it, 10 * at + (it == many)) for at in range(turns)] for it in (few, many)}
    middle = {it: quantile([waited for waited, _ in seen], 0.5) for it, seen in took.items()}
    used = {it: quantile([spent for _, spent in seen], 0.5) for it, seen in took.items()}
    words = [f"{it:,}: told in {shown(middle[it])}, {shown(used[it])} of the processor" for it in took]
    return Seen({"few": middle[few], "many": middle[many], "few used": used[few], "many used": used[many]}, "; ".join(words))


def slow(over, say, place):
    """A member that takes some 4,096 octets every 20 ms: how many it took."""
    it, taken = Member(place, ATTACKER, window=4096), 0
    speak([it], 30, lambda: it.is_up)
    while not (over.is_set() or it.ended):
        it.write()
        with contextlib.suppress(BlockingIOError):
            taken += len(it.socket.recv(4096))
        time.sleep(0.02)
    return taken


def behind(target, members, routes, seconds):
    """A member that takes little while all routes wait for it: what a change between two others costs."""
    with Exchange(target, 64) as exchange:
        seen = Attack(exchange, slow, seconds, members, routes)
    calm, now = seen.a_change(0, seen.first), seen.a_change((seen.first + seen.last) / 2, seen.last)
    words = f"{shown(calm)} of the processor a change before, {shown(now)} while {members * routes:,} routes wait; it took {seen.seen:,} octets"
    return Seen({"before": calm, "now": now, "lost": seen.lost}, words, [("while they wait", seen.first, seen.last)])


def idle(exchange, members, most=30):
    """The server's processor seconds once it works no more, while the members speak."""
    until, still, last = time.monotonic() + most, 0, exchange.seconds()
    while still < 3 and time.monotonic() < until:
        speak(members, 0.5)
        now = exchange.seconds()
        still = still + 1 if now - last < 0.02 else 0
        last = now
    return last


def held_by(target, members, holding, prefixes):
    """So many of the members hold the same prefixes, by falling identifiers, and one of these announces them anew: the server's
    processor seconds for that, the least of three times."""
    with Exchange(target, members + 10) as exchange:
        them = come_up([Member(exchange.place, 10 + at, address=next_hop(members - at)) for at in range(members)], 60)
        for it in them[:holding]:
            it.out += update(field=attributes([number(it.at)], next_hop(it.at)), nlri=slash24s(0, prefixes))
        idle(exchange, them, 120)
        took, it = [], them[holding // 2]
        for med in range(3):
            used = exchange.seconds()
            it.out += update(field=attributes([number(it.at)], next_hop(it.at), med), nlri=slash24s(0, prefixes))
            took.append(idle(exchange, them) - used)
    return min(took)


def holders(target, few, many, prefixes):
    """What a change of prefixes costs that few members hold, and many, beside as many clients."""
    each = {it: held_by(target, many, it, prefixes) for it in (few, many)}
    words = ", ".join(f"{shown(took)} of the processor with {it} holders" for it, took in each.items())
    return Seen({"few": each[few], "many": each[many], "times": many / few}, words)


def at_once(target, members, times):
    """Each member's KEEPALIVE, all at once: the server's processor seconds for each, the least of so many times."""
    with Exchange(target, members + 10) as exchange:
        them = come_up([Member(exchange.place, 10 + at) for at in range(members)], 60)
        speak(them, 2)
        exchange.settle(20)
        took = []
        for _ in range(times):
            with stopped(exchange):
                for it in them:
                    it.out += message(KEEPALIVE)
                speak(them, 0.2, reading=False)
                used = exchange.seconds()
            speak(them, 0.4)
            took.append((exchange.seconds() - used) / members)
    return min(took)


def crowd(target, few, many, times):
    """What an event costs with a few clients and with many."""
    each = {it: at_once(target, it, times) for it in (few, many)}
    words = ", ".join(f"{shown(took)} of the processor a KEEPALIVE with {it} members" for it, took in each.items())
    return Seen({"few": each[few], "many": each[many]}, words)


def rules(count, mark):
    """A list of so many rules that match nothing; another mark makes other ones."""
    lines = [f'{{ prefix = "{mark}.{at}.0.0/16", max = 32, action = "drop" }}' for at in range(count)]
    return f"export = [{', '.join(lines)}]\n"


def waited(exchange, members, event, most):
    """An event, and all that it brings about: when it began and when the server had done with it."""
    began = time.monotonic()
    event()
    idle(exchange, members, most)
    return began, time.monotonic()


def large(target, members, routes, big, listed, most):
    """A member of many routes is lost, comes up, and all rules are replaced, with four workers: the longest wait of a change."""
    with Exchange(target, members + 12, each=rules(listed, 60), words=("--workers", "4", "--reload", "1")) as exchange:
        honest = Beside(witnesses, exchange.place, 10, members, routes, each=100)
        with working(honest):
            honest.ready(200)
            exchange.settle(120)
            probing = Beside(probe, exchange.place).ready(120)
            with working(probing):
                return large_events(exchange, honest, probing, big, listed, members, most)


def large_events(exchange, honest, probing, big, listed, members, most):
    them = []

    def comes_up():
        them.append(come_up([Member(exchange.place, ATTACKER)])[0])
        them[0].out += announced(ATTACKER, FAR, big, 100)

    def replaced():
        new = exchange.room / "new"
        new.write_text(exchange.target.configuration(exchange.room, exchange.port, members + 12, 90, "", rules(listed, 61)))
        new.rename(exchange.file)

    spans = {}
    for name, event in (("comes up", comes_up), ("rules replaced", replaced), ("is lost", lambda: them[0].close(at_once=True))):
        spans[name] = waited(exchange, them, event, most)
    waits = probing.end()
    lost = sum(honest.end().values()) + sum(waits.ended.values())
    longest = {name: max(waits.between(*span), default=float("inf")) for name, span in spans.items()}
    words = "; ".join(f"{it}: {shown(took)}" for it, took in longest.items())
    return Seen({"longest": max(longest.values()), "lost": lost}, words, [(f"{members} members, {name}", *span) for name, span in spans.items()])


def events(target, sizes):
    """The events of `large` in each of these sizes."""
    seen = [large(target, **it) for it in sizes]
    words = "; ".join(f"{it['members']} members, {it['members'] * it['routes'] + it['big']:,} prefixes, {it['listed']} rules a list: {one.words}" for it, one in zip(sizes, seen))
    figures = {"longest": max(it.figures["longest"] for it in seen), "lost": sum(it.figures["lost"] for it in seen)}
    return Seen(figures, words, [span for it in seen for span in it.spans])
