#!/usr/bin/env python3
"""Plays random sessions to a built rs_replay, and holds what its clients hold against the plain function.

fuzz.py PROGRAM [CASES [SEED]]

A case is a configuration (rules, lists, limits, long messages, ROUTE-REFRESH) and a session: members that come up, as two-octet
or four-octet peers, and come again; routes, withdrawals and faults, in any pieces; turns, rooms of any size, losses, moments, the
operator's commands and replaced rules. The seed is printed, by which the same cases come again. Where a case differs, the smallest session that
still does, found by leaving out lines, is printed with its configuration.
"""
import pathlib
import random
import struct
import sys
import time
import tomllib

from plays.holding import asked, drain, play
from results import end, tell

CASES = 100
MARKER = b"\xff" * 16
NAMES = "abcd"
PREFIXES = [(bits, length) for bits, length in ((0x0A000000, 8), (0x0A010000, 16), (0x0A010200, 24), (0xC6336400, 24), (0xC6336480, 25), (0, 0), (0xCB007101, 32))]
LISTS = ["small", "large"]
# Rules that others use: import lists use the first, in which no part is `peer`.
SHARED = ["first", "second"]
BIG = 4_200_000_000
AS_TRANS = 23456
AS_NUMBERS = [64496, 64497, 64498, BIG]
# Communities that routes have, and patterns of them; those with `peer` stand where routes go out.
# 59904 is what two octets hold of the greatest AS number: no community has that one as a part.
COMMUNITIES = ["64500:1", "65535:65281", "0:64496", "0:64497", "0:64498", "64500:64496", "64500:64498", "64497:1", "64498:1", f"0:{BIG % 65_536}"]
LARGE = ["64500:0:64497", "64500:0:64498", "64500:1:64496", f"64500:0:{BIG}", f"64500:{BIG}:1", f"{BIG}:4294967295:0", "64496:1:2"]
PATTERNS = ["64500:*", "0:*", "64497:*", "65000:*"]
LARGE_PATTERNS = ["64500:0:*", "64500:*:*", f"{BIG}:*:*", "64496:*:*", "64500:2:*"]
OF_PEER = ["0:peer", "64500:peer", "peer:*", "peer:1"]
LARGE_OF_PEER = ["64500:0:peer", "64500:peer:*", "peer:*:*", "64500:1:peer"]
# Tests that hold of few routes, or come in several kinds: rules have them more often.
SELDOM = ["prefix", "prefix_in", "from", "origin_as", "origin_as", "origin_in", *["community"] * 5, *["large_community"] * 5]


def message(kind, body):
    return MARKER + struct.pack(">HB", 19 + len(body), kind) + body


KEEPALIVE = message(4, b"")


def spelt(prefix):
    bits, length = prefix
    return bytes([length]) + struct.pack(">I", bits)[: (length + 7) // 8]


def attribute(flags, kind, value):
    if len(value) > 255:
        return struct.pack(">BBH", flags | 0x10, kind, len(value)) + value
    return struct.pack(">BBB", flags, kind, len(value)) + value


def update(withdrawn, field, nlri):
    return message(2, struct.pack(">H", len(withdrawn)) + withdrawn + struct.pack(">H", len(field)) + field + nlri)


class Peer:
    """A member, and how it spells AS numbers since its last connection."""

    def __init__(self, place):
        self.name, self.number, self.address = NAMES[place], AS_NUMBERS[place], 0xC000020B + place
        self.is_four, self.is_long, self.identifier = True, False, self.address

    def open(self, draw):
        self.is_four, self.is_long = self.number == BIG or draw.random() < 0.7, draw.random() < 0.5
        self.identifier = draw.choice([self.address, self.address, 0xC0000201 + draw.randrange(3)])
        capabilities = (b"\x41\x04" + struct.pack(">I", self.number) if self.is_four else b"") + (b"\x06\x00" if self.is_long else b"")
        parameters = bytes([2, len(capabilities)]) + capabilities if capabilities else b""
        hold, my_as = draw.choice([0, 0, 90]), AS_TRANS if self.number == BIG else self.number
        return message(1, struct.pack(">BHHIB", 4, my_as, hold, self.identifier, len(parameters)) + parameters)

    def path(self, draw):
        numbers = [self.number] + [draw.choice([64496, 64497, 64999, 64999, 65000, 64500][: 5 + (draw.random() < 0.3)]) for _ in range(draw.randrange(3))]
        if draw.random() < 0.1:
            numbers += [BIG if self.is_four else 64999] * draw.choice([200, 500, 700])
        elif draw.random() < 0.3 and self.is_four:
            numbers.append(BIG)
        kind, code = draw.choice([2, 2, 2, 1]), ">I" if self.is_four else ">H"
        pieces = [numbers[at : at + 255] for at in range(0, len(numbers), 255)]
        return b"".join(bytes([kind, len(it)]) + b"".join(struct.pack(code, one) for one in it) for it in pieces)

    def as4(self, draw):
        """What a two-octet peer says in AS4_PATH and AS4_AGGREGATOR (RFC 6793, 4.2.2), not all of it as it should be."""
        field = b""
        if draw.random() < 0.4:
            pieces = [(draw.choice([2, 2, 2, 1, 3]), draw.sample([BIG, 64999, 65000, 64497], draw.choice([1, 1, 2, 3]))) for _ in range(draw.choice([1, 1, 2]))]
            field += attribute(0xC0, 17, b"".join(struct.pack(f">BB{len(it)}I", kind, len(it), *it) for kind, it in pieces))
        if draw.random() < 0.3:
            field += attribute(0xC0, 18, struct.pack(">II", BIG, self.address))
        return field

    def attributes(self, draw):
        """The attributes of a route, not all of them as they should be."""
        field = attribute(0x40, 1, bytes([draw.choice([0, 0, 1, 2, 3] if draw.random() < 0.2 else [0, 0, 2])]))
        field += attribute(0x40, 2, self.path(draw))
        if draw.random() < 0.95:
            field += attribute(0x40, 3, struct.pack(">I", draw.choice([self.address, 0xC000020C])))
        if draw.random() < 0.4:
            field += attribute(0x80, 4, struct.pack(">I", draw.randrange(3)))
        if draw.random() < 0.2:
            field += attribute(0xC0, 7, struct.pack(">II" if self.is_four else ">HI", 64496 if self.is_four else draw.choice([64496, AS_TRANS]), self.address))
        if not self.is_four:
            field += self.as4(draw)
        if draw.random() < 0.7:
            chosen = draw.sample(COMMUNITIES, draw.choice([1, 4, 8]))
            field += attribute(0xC0, 8, b"".join(struct.pack(">HH", *map(int, it.split(":"))) for it in chosen))
        if draw.random() < 0.7:
            chosen = draw.sample(LARGE, draw.choice([1, 3, 6]))
            field += attribute(0xC0, 32, b"".join(struct.pack(">III", *map(int, it.split(":"))) for it in chosen))
        if draw.random() < 0.1:
            field += attribute(0xC0, 99, b"\xab\xcd")
        return field

    def update(self, draw):
        withdrawn = b"".join(map(spelt, draw.sample(PREFIXES, draw.choice([0, 0, 1, 2]))))
        nlri = b"".join(map(spelt, draw.sample(PREFIXES, draw.choice([0, 1, 1, 2, 3]))))
        return update(withdrawn, self.attributes(draw) if nlri else b"", nlri)


def dotted(prefix):
    return "%d.%d.%d.%d/%d" % (*struct.pack(">I", prefix[0]), prefix[1])


def operators(length):
    """Range operators for a prefix of this length."""
    return ["", "^+", "^32", f"^{length}-32", *(["^-"] if length < 32 else [])]


def stripped(draw, key, patterns):
    """What a rule takes away of one type."""
    return f'{key} = "all"' if draw.random() < 0.2 else f"{key} = {draw.sample(patterns, draw.choice([1, 1, 2]))}"


def tests(draw, is_out):
    """What a rule may ask of a route, by key; `peer` stands in a list by which routes go out."""
    prefix = draw.choice(PREFIXES)
    most = f", max = {draw.choice([32, draw.randrange(prefix[1], 33)])}" if draw.random() < 0.8 else ""
    patterns, large = [COMMUNITIES, PATTERNS], [LARGE, LARGE_PATTERNS]
    if is_out:
        patterns, large = [*patterns, *[OF_PEER] * 3], [*large, *[LARGE_OF_PEER] * 3]
    return {
        "prefix": f'"{dotted(prefix)}"{most}',
        "prefix_in": f'"{draw.choice(LISTS)}"',
        "from": f'"{draw.choice(NAMES)}"',
        "path_has": draw.choice([64999, 64497]),
        "path_longer": draw.randrange(4),
        "path_in": f'"{draw.choice(LISTS)}"',
        "origin_as": draw.choice([64496, 64999, 64999, BIG]),
        "origin_in": f'"{draw.choice(LISTS)}"',
        "first_as_is_peer": draw.choice(["true", "false"]),
        "community": f'"{draw.choice(draw.choice(patterns))}"',
        "large_community": f'"{draw.choice(draw.choice(large))}"',
        "next_hop_is_peer": draw.choice(["true", "false"]),
    }


def rule(draw, is_out):
    """A rule as the configuration has it, of a list by which routes go out or of another."""
    asked = tests(draw, is_out)
    keys = draw.sample([*asked, *SELDOM], draw.choice([0, 1, 1, 1, 1, 1, 1, 1, 2, 2, 3]))
    words = [f"{key} = {asked[key]}" for key in dict.fromkeys(keys)]
    passes = draw.random() < 0.75
    words.append(f'action = "{"pass" if passes else "drop"}"')
    if passes and draw.random() < 0.5:
        words.append(f"preference = {draw.choice([50, 100, 200])}")
    if passes and draw.random() < 0.7:
        words.append(stripped(draw, "strip", draw.choice([COMMUNITIES, PATTERNS])))
    if passes and draw.random() < 0.7:
        words.append(stripped(draw, "strip_large", draw.choice([LARGE, LARGE_PATTERNS])))
    return "{ " + ", ".join(words) + " }"


def named_list(draw, name):
    """A list as the configuration has it."""
    entries = [f'"{dotted(it)}{draw.choice(operators(it[1]))}"' for it in draw.sample(PREFIXES, draw.randrange(5))]
    ases = [draw.choice(["64496", "64999", f'"64497-{BIG}"', str(BIG)]) for _ in range(draw.randrange(3))]
    return f'\n[[list]]\nname = "{name}"\nprefixes = [{", ".join(entries)}]\nases = [{", ".join(ases)}]\n'


def rules(draw, is_out, most, used):
    """An array of up to so many rules, which may use others of these names."""
    tables = [rule(draw, is_out) for _ in range(draw.randint(1, most))]
    if used and draw.random() < 0.3:
        tables.insert(draw.randrange(len(tables) + 1), f'{{ use = "{draw.choice(used)}" }}')
    return f"[{', '.join(tables)}]"


def configuration(draw, fixed, part=0.3, most=3, has_limits=True):
    """A text, in which such a part of the members' lists has rules, up to so many, and members may have limits of prefixes; what may
    not change while the server runs is `fixed`."""
    extended, refresh = fixed
    text = f'as = 64500\nidentifier = "192.0.2.1"\nhold = 90\ndefault = "{draw.choice(["pass", "pass", "pass", "drop"])}"\n'
    text += f"extended = {extended}\nrefresh = {refresh}\n"
    text += "".join(named_list(draw, name) for name in LISTS)
    text += "".join(f'\n[[rules]]\nname = "{name}"\nrules = {rules(draw, name != SHARED[0], most, [])}\n' for name in SHARED)
    for place, name in enumerate(NAMES):
        text += f'\n[[client]]\nname = "{name}"\nas = {AS_NUMBERS[place]}\nlisten = "127.0.0.1:{17901 + place}"\npeer = "192.0.2.{11 + place}"\n'
        if has_limits and draw.random() < 0.15:
            text += f"limit = {draw.randrange(1, 5)}\n"
        for kind, is_out, used in (("import", False, SHARED[:1]), ("export", True, SHARED)):
            if draw.random() < part:
                text += f"{kind} = {rules(draw, is_out, most, used)}\n"
    return text


def pieces(draw, name, octets):
    """The lines by which octets come, in any pieces."""
    cuts = sorted(draw.sample(range(len(octets)), min(len(octets), draw.choice([0, 0, 0, 1, 3])))) + [len(octets)]
    before = 0
    for cut in cuts:
        for at in range(before, cut, 4096):
            yield f"octets {name} {octets[at : min(cut, at + 4096)].hex()}"
        before = cut


def again(draw, peer):
    """The lines by which a member loses its connection and comes again."""
    return [f"lost {peer.name}", f"open {peer.name}", *pieces(draw, peer.name, peer.open(draw) + KEEPALIVE)]


def commanded(draw, peer):
    """The lines of a command of the operator; behind an end, whose NOTIFICATION may be taken, the member may come again."""
    if draw.random() < 0.5:
        return [f"refresh {peer.name}"]
    text = draw.choice(["", f" {b'maintenance'.hex()}", f" {b'a'.hex() * 128}"])
    lines = [f"shutdown {peer.name}{text}", *draw.choice([[], [f"room {peer.name} {draw.choice([10, 1000])}"]])]
    return lines + (again(draw, peer) if draw.random() < 0.7 else [])


def session(draw):
    """A configuration, and the lines of a session."""
    fixed = draw.choice(["true", "false"]), draw.choice(["true", "false"])
    text, peers, moment = configuration(draw, fixed), [Peer(place) for place in range(len(NAMES))], 0
    lines = []
    for peer in peers:
        lines += [f"open {peer.name}", *pieces(draw, peer.name, peer.open(draw) + KEEPALIVE)]
    for _ in range(draw.randrange(10, 60)):
        peer, chance = draw.choice(peers), draw.random()
        if chance < 0.45:
            lines += pieces(draw, peer.name, b"".join(peer.update(draw) for _ in range(draw.choice([1, 1, 2]))))
        elif chance < 0.6:
            lines.append("turn")
        elif chance < 0.8:
            lines.append(f"room {peer.name} {draw.choice([1, 19, 50, 1000, 100_000, draw.randrange(1, 300)])}")
        elif chance < 0.85:
            lines += again(draw, peer)
        elif chance < 0.89:
            moment += draw.choice([1, 29, 30])
            lines.append(f"moment {moment}")
        elif chance < 0.92:
            lines += commanded(draw, peer)
        elif chance < 0.95:
            lines.append(f"rules {configuration(draw, fixed).encode().hex()}")
        elif chance < 0.97:
            lines.append(f"octets {peer.name} {(message(5, bytes([0, 1, 0, 1])) if fixed[1] == 'true' else KEEPALIVE).hex()}")
        else:
            octets = bytearray(peer.update(draw))
            octets[draw.randrange(len(octets))] = draw.randrange(256)
            lines += pieces(draw, peer.name, bytes(octets))
    return text, [line for line in lines if len(line) <= 8_000]


def played(program, text, lines, workers):
    return play(program, text, [*lines, *drain(tomllib.loads(text))], workers)


def held(one):
    """What is wrong with a session that was played, or None, and how many routes its clients hold."""
    return (f"status {one.status}: {one.errors.strip()}", 0) if one.status else asked(one)


def differs(program, text, lines, workers):
    """What is wrong with a session, or None."""
    return held(played(program, text, lines, workers))[0]


def smallest(program, text, lines, workers):
    """The session without each line that can be left out while it still differs."""
    size = len(lines) // 2
    while size:
        at = 0
        while at < len(lines):
            fewer = lines[:at] + lines[at + size :]
            if differs(program, text, fewer, workers):
                lines = fewer
            else:
                at += size
        size //= 2
    return lines


def fuzz(program, cases, seed):
    """The results of so many cases."""
    if not program.exists():
        yield "random sessions", f"{program} isn't there"
        return
    draw, all_routes = random.Random(seed), 0
    for number in range(cases):
        text, lines = session(draw)
        workers = draw.choice([1, 2, 3])
        wrong, routes = held(played(program, text, lines, workers))
        all_routes += routes
        if wrong:
            least = smallest(program, text, lines, workers)
            wrong = differs(program, text, least, workers)
            yield f"random session {number} of seed {seed}", "\n".join([str(wrong), text, *least])
    yield f"{cases} random sessions of seed {seed}, {all_routes} routes held", None if all_routes else "no route was held"


if __name__ == "__main__":
    if len(sys.argv) < 2:
        sys.exit(__doc__)
    number = int(sys.argv[2]) if len(sys.argv) > 2 else CASES
    chosen = int(sys.argv[3]) if len(sys.argv) > 3 else time.time_ns() % 2**32
    print(f"seed {chosen}", flush=True)
    end(*tell(fuzz(pathlib.Path(sys.argv[1]).resolve(), number, chosen)))
