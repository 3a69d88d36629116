"""One play of daemons as members: the server, the daemons and a plain member, and what each of them saw."""
import collections
import contextlib
import pathlib
import re
import socket
import subprocess
import threading
import time

from peers.speaker import IPV4_UNICAST, ROUTE_REFRESH, Speaker, attribute, attributes, message, prefixes, update

from .router import Place, Route, prefixes_of

PLACE = Place("127.0.0.2", 17990, 64500)
PLAIN = 9
REFRESH = b"\2\0"
EXTENDED = b"\6\0"
# How long each thing may take, in seconds.
PATIENCE = 60
# What is asked of a play: how many routes each member has, the server's Hold Time, and whether long messages are offered.
Load = collections.namedtuple("Load", "count hold long")
LIGHT, HEAVY = Load(1000, 90, False), Load(20_000, 9, True)

# What is looked at with a heavy load, each member alone beside the plain one.
HEAVY_CHECKS = (
    ("comes up", ""),
    ("long messages", ""),
    ("hears all", "it shows just the plain member's routes, with their attributes"),
    ("is heard", "the plain member was told all of its routes, so"),
    ("asks again", "by ROUTE-REFRESH all routes come again, as it counts them, and its table is as before"),
    ("Hold Time 9", "the session has it, and lasts 30 seconds in which no route changes"),
    ("is ended and comes back", "by SIGKILL: its routes go from the plain member; then both have all again"),
    ("the server is ended and comes back", ""),
)
CHECKS = (
    ("comes up", ""),
    ("hears all others", "it shows just the 1,000 routes of each other member"),
    ("as they were sent", "with AS_PATH, NEXT_HOP, MED and communities as sent (OpenBGPD shows a missing MED as 0)"),
    ("is heard", "the plain member was told all of its routes, so"),
    ("withdrawal arrives", "the plain member withdraws a route, and it is gone here"),
    ("withdraws", ""),
    ("faulty route stays out", "the plain member announces routes with a faulty ORIGIN, one new, one in place of another: neither is here, and its session lasts"),
    ("asks again", "by ROUTE-REFRESH all routes come again, as it counts them, and its table is as before"),
    ("the server's stop", "by SIGTERM: the session is down, and no route of it is left here"),
)


class Plain(Speaker):
    """A member that keeps what it is told, as a daemon would."""

    name, shows_zero = "plain", False

    def __init__(self, load):
        self.number, self.table, self.count, self.noted, self.stays = 65536, {}, 0, None, True
        self.prefixes, self.hold, self.long = prefixes_of(PLAIN, load.count), load.hold, load.long
        offered = IPV4_UNICAST + REFRESH + (EXTENDED if load.long else b"")
        super().__init__(self.number, f"10.255.0.{PLAIN}", PLACE[:2], f"127.0.1.{PLAIN}", offered)

    def sent(self):
        kinds = [
            Route((65536,), "10.255.0.9", None, ()),
            Route((65536,), "10.255.0.9", 0xFFFFFFFF, ("64500:1", "65000:65535")),
            Route((65536, 65536, 4200000001), "10.255.0.9", 10, ()),
            Route((65536, *range(64512, 64528)), "10.255.0.9", None, tuple(f"65000:{it}" for it in range(12))),
        ]
        return {it: kinds[at % len(kinds)] for at, it in enumerate(self.prefixes)}

    def announce(self, prefix, it):
        self.announce_all([prefix], it)

    def announce_all(self, prefixes, it):
        """Announces these prefixes by one UPDATE."""
        pairs = [tuple(map(int, one.split(":"))) for one in it.communities]
        self.out += update(field=attributes(it.path, it.next_hop, it.med, pairs), nlri=b"".join(map(octets, prefixes)))

    def came_up(self):
        """Announces all: one route in each UPDATE, or by long messages all of one kind."""
        if not self.long:
            for prefix, it in self.sent().items():
                self.announce(prefix, it)
            return
        kinds = collections.defaultdict(list)
        for prefix, it in self.sent().items():
            kinds[it].append(prefix)
        for it, prefixes in kinds.items():
            self.announce_all(prefixes, it)

    def refused(self, body):
        self.noted = body.hex()

    def told_of(self, withdrawn, field, nlri):
        for prefix in prefixes(withdrawn):
            self.table.pop(text(prefix), None)
        for prefix in prefixes(nlri):
            self.table[text(prefix)] = meaning(field)
            self.count += 1

    def speak(self, over):
        """Speaks until it is over, beside the play."""
        while not over.is_set() and self.stays:
            with contextlib.suppress(BrokenPipeError):
                self.write()
            try:
                self.stays = self.read()
            except OSError:
                self.stays = False
            over.wait(0.02)


def octets(prefix):
    """A prefix of 24 bits as an UPDATE spells it."""
    return b"\x18" + socket.inet_aton(prefix.partition("/")[0])[:3]


def text(prefix):
    return f"{socket.inet_ntoa(prefix[1:].ljust(4, bytes(1)))}/{prefix[0]}"


def meaning(field):
    """The route that attributes of a four-octet session speak of."""
    seen = {}
    while field:
        long = field[0] & 0x10
        size = int.from_bytes(field[2:4], "big") if long else field[2]
        at = 4 if long else 3
        seen[field[1]] = field[at : at + size]
        field = field[at + size :]
    numbers, rest = [], seen.get(2, b"")
    while rest:
        numbers += [int.from_bytes(rest[2 + 4 * it : 6 + 4 * it], "big") for it in range(rest[1])]
        rest = rest[2 + 4 * rest[1] :]
    pairs = seen.get(8, b"")
    words = (f"{int.from_bytes(pairs[it:it + 2], 'big')}:{int.from_bytes(pairs[it + 2:it + 4], 'big')}" for it in range(0, len(pairs), 4))
    return Route(tuple(numbers), socket.inet_ntoa(seen[3]), int.from_bytes(seen[4], "big") if 4 in seen else None, tuple(words))


class Play:
    """The server and its members. `seen` says of each check and member what was seen."""

    def __init__(self, program, members, room, short, until, load=LIGHT):
        self.program, self.room, self.until, self.load = program, pathlib.Path(room), until, load
        self.members = [it(PLACE, 64500 + at, at, room, short, load.count, load.long) for at, it in enumerate(members, 1)]
        self.seen, self.plain, self.server, self.over = {}, None, None, threading.Event()

    def note(self, check, member, good, wrong):
        words = "yes" if good is True else f"yes, {good}" if good else f"no: {wrong}"
        self.seen[check, member.name] = words
        print(f"  {member.name}: {check}: {words}", flush=True)

    def wait(self, holds, patience=PATIENCE):
        """Waits until something holds. Answers whether it does."""
        last = min(time.monotonic() + patience, self.until)
        while not (held := holds()) and time.monotonic() < last:
            time.sleep(0.3)
        return held

    def start(self):
        clients = [(it.name, it.number, it.address) for it in self.members] + [("plain", 65536, f"127.0.1.{PLAIN}")]
        lines = [f'as = {PLACE.number}\nidentifier = "192.0.2.1"\nhold = {self.load.hold}\nmultiprotocol = true\nrefresh = true\n']
        lines += ["extended = true\n"] if self.load.long else []
        lines += [f'[[client]]\nname = "{name}"\nas = {number}\nlisten = "{PLACE.server}:{PLACE.port}"\npeer = "{peer}"\n' for name, number, peer in clients]
        (self.room / "served.toml").write_text("\n".join(lines))
        self.serve()
        for it in self.members:
            it.start()

    def serve(self):
        """Starts the server, and the plain member."""
        self.server = subprocess.Popen(
            [*self.program, "--config", self.room / "served.toml", "--log"],
            stdout=open(self.room / "served.out", "w"),
            stderr=open(self.room / "served.log", "w"),
        )
        if not self.wait(lambda: "listening" in (self.room / "served.out").read_text()):
            raise SystemExit("the server does not listen: " + (self.room / "served.log").read_text())
        self.plain = Plain(self.load)
        threading.Thread(target=self.plain.speak, args=(self.over,), daemon=True).start()

    def end(self):
        self.over.set()
        for it in self.members:
            it.end()
        if self.server and self.server.poll() is None:
            self.server.kill()
            self.server.wait()

    def run(self):
        self.start()
        self.come_up()
        self.hear_all()
        self.withdraw()
        self.fault()
        self.ask_again()
        self.stop()

    def first(self, member):
        """Whether the member's session is still the first that it had, as the server says."""
        lines = (self.room / "served.out").read_text().splitlines()
        told = [line for line in lines if line.endswith(f" {member.name}")]
        return told == [f"begin {member.name}"]

    def come_up(self):
        for it in self.members:
            self.wait(lambda: it.state() != "not there")
            it.after_start()
        for it in self.members:
            up = self.wait(it.is_up)
            self.note("comes up", it, up and self.first(it), it.state() if not up else "not at the first attempt")
        self.note("comes up", self.plain, self.wait(lambda: self.plain.is_up), self.plain.noted)

    def others(self, member):
        """What the member should be told."""
        return {prefix: it for one in (*self.members, self.plain) if one.name != member.name for prefix, it in one.sent().items()}

    def table(self, member):
        """What the member was told, as it shows it itself."""
        own = set(member.prefixes)
        return {prefix: it for prefix, it in (member.table if member is self.plain else member.table()).items() if prefix not in own}

    def hear_all(self):
        for member in (*self.members, self.plain):
            due = self.others(member)
            self.wait(lambda: set(self.table(member)) == set(due))
            table = self.table(member)
            missing, strange = sorted(due.keys() - table.keys()), sorted(table.keys() - due.keys())
            self.note("hears all others", member, set(table) == set(due), f"missing {few(missing)}, too many {few(strange)}")
            other = [(prefix, it, table[prefix]) for prefix, it in due.items() if prefix in table and not alike(member, it, table[prefix])]
            told = f"{len(other)} otherwise, as {other[0][0]}: {plainly(other[0][2])} for {plainly(other[0][1])}" if other else "none was heard"
            self.note("as they were sent", member, not other and bool(table), told)
        for member in self.members:
            due = member.sent()
            heard = {prefix for prefix, it in due.items() if self.plain.table.get(prefix) == it}
            self.note("is heard", member, len(heard) == len(due), f"{len(heard)} of {len(due)}")

    def withdraw(self):
        gone = self.plain.prefixes[5]
        self.plain.out += update(withdrawn=octets(gone))
        for it in self.members:
            self.note("withdrawal arrives", it, self.wait(lambda: gone not in self.table(it)), "the route is still there")
        for it in self.members:
            it.withdraw(it.prefixes[5])
        for it in self.members:
            self.note("withdraws", it, self.wait(lambda: it.prefixes[5] not in self.plain.table), "the plain member has the route still")

    def fault(self):
        """ORIGIN 9, for a route that is there and for a new one; then a good one, after which both have been heard."""
        new, old, mark = "10.40.0.0/24", self.plain.prefixes[6], "10.40.1.0/24"
        bad = attribute(0x40, 1, b"\x09") + attributes((65536,), "10.255.0.9")[4:]
        self.plain.out += update(field=bad, nlri=octets(new)) + update(field=bad, nlri=octets(old))
        self.plain.announce(mark, Route((65536,), "10.255.0.9", None, ()))
        for it in self.members:
            self.wait(lambda: mark in self.table(it))
            table = self.table(it)
            good = mark in table and new not in table and old not in table and it.is_up() and self.first(it)
            self.note("faulty route stays out", it, good, f"{'a faulty route is there' if new in table or old in table else it.state()}")
        self.note("faulty route stays out", self.plain, self.plain.stays and self.first(self.plain), self.plain.noted)

    def ask_again(self):
        for it in self.members:
            before, table, quiet = it.heard(), self.table(it), self.plain.count
            it.refresh()
            least = len(set(table.values()))
            again = self.wait(lambda: it.heard() >= before + least, 20 if it.refreshes else 3)
            if not it.refreshes and not again:
                self.seen["asks again", it.name] = "has no command that sends it"
                continue
            same = self.wait(lambda: self.table(it) == table, 20)
            good = again and same and self.first(it) and self.plain.count == quiet
            words = f"{it.heard() - before} {it.counts}"
            self.note("asks again", it, good and words, f"{words}; the plain member was told {self.plain.count - quiet}")

        # The plain member is told each route once.
        before = self.plain.count
        self.plain.out += message(ROUTE_REFRESH, b"\0\1\0\1")
        self.wait(lambda: self.plain.count >= before + len(self.plain.table), 20)
        time.sleep(1)
        told, due = self.plain.count - before, len(self.plain.table)
        self.note("asks again", self.plain, told == due and f"{told} routes", f"{told} routes, and {due} are due")

    def stop(self):
        self.server.terminate()
        self.server.wait(20)
        for it in self.members:
            good = self.wait(lambda: not it.is_up() and (it.keeps_told or not self.table(it)))
            words = f"says {it.state()}" + (", keeps what it was told by its nature" if it.keeps_told else "")
            self.note("the server's stop", it, good and words, f"{it.state()}, {len(self.table(it))} routes")
        self.note("the server's stop", self.plain, self.wait(lambda: not self.plain.stays) and self.plain.noted is None and "the connection is closed", self.plain.noted or "the connection is there")


class HeavyPlay(Play):
    """One member alone beside the plain one, both with many routes, by a short Hold Time and by long messages where it has them."""

    def run(self):
        self.start()
        self.come_up()
        member = self.members[0]
        self.note_speech(member)
        self.note("hears all", member, *self.hears(member))
        self.note("is heard", member, *self.is_heard(member))
        self.ask_again()
        self.be_silent(member)
        self.end_member(member)
        self.end_server(member)

    def said(self, member):
        """The limit of messages and the Hold Time of its last session, as the server says."""
        found = re.findall(rf" {member.name} up: .* up to (\d+) octets, Hold Time (\d+)", (self.room / "served.log").read_text())
        return tuple(map(int, found[-1])) if found else (0, 0)

    def note_speech(self, member):
        long = self.said(member)[0] == 65535
        self.note("long messages", member, long, "the server does not say so") if long else self.seen.update({("long messages", member.name): "offers none"})

    def hears(self, member):
        """Whether the member shows what it is to be told, and what is wrong."""
        due = self.others(member)
        holds = lambda: self.table(member).keys() == due.keys()
        self.wait(holds)
        table = self.table(member)
        other = [it for it in due if it in table and not alike(member, due[it], table[it])]
        return table.keys() == due.keys() and not other, f"{len(table)} routes of {len(due)}, {len(other)} otherwise"

    def is_heard(self, member):
        """Whether the plain member has what this one sends, and what is wrong."""
        due = member.sent()
        self.wait(lambda: self.plain.table == due)
        return self.plain.table == due, f"the plain member has {len(self.plain.table)} routes of {len(due)}"

    def be_silent(self, member):
        hold, before = self.said(member)[1], self.plain.count
        time.sleep(30)
        good = hold == 9 and member.is_up() and self.first(member) and self.plain.stays and self.plain.count == before
        self.note("Hold Time 9", member, good, f"Hold Time {hold}, {member.state()}")

    def both(self, member):
        """Whether the session is there, and both have all routes, and what is wrong."""
        up = self.wait(member.is_up)
        for part in (self.hears, self.is_heard):
            good, wrong = part(member)
            if not (up and good):
                return False, f"{member.state()}, {wrong}"
        return True, None

    def end_member(self, member):
        member.kill()
        gone = self.wait(lambda: not self.plain.table)
        time.sleep(1)
        member.start()
        self.wait(lambda: member.state() != "not there")
        member.after_start()
        good, wrong = self.both(member)
        self.note("is ended and comes back", member, gone and good, wrong or "its routes stayed")

    def end_server(self, member):
        self.server.kill()
        self.server.wait()
        down = self.wait(lambda: not member.is_up())
        self.serve()
        good, wrong = self.both(member)
        self.note("the server is ended and comes back", member, down and good, wrong or "its session stayed")


def alike(member, sent, shown):
    """Whether a route is shown as it was sent. Where a daemon shows 0 for no MED, 0 is none."""
    if member.shows_zero:
        sent, shown = (it._replace(med=it.med or 0) for it in (sent, shown))
    return sent == shown


def few(prefixes):
    """How many prefixes, and the first of them."""
    return f"{len(prefixes)}" + (f" ({', '.join(prefixes[:3])})" if prefixes else "")


def plainly(it):
    return f"path {' '.join(map(str, it.path))}, next hop {it.next_hop}, MED {it.med}, communities {' '.join(it.communities) or 'none'}"
