"""Plays one route by one rule to a built rs_replay, and says where the rule matches, or takes away, otherwise than it must.

play.py matching PROGRAM

A row is a test of a rule, a route of member a and whether the rule matches it. The rule drops, from a's import list or from member b's
export list, so that b is sent the route where the rule doesn't match. Then the rule is replaced by none, with the session as it is: b is
sent what was dropped, so that the route was there. Rows of what is taken away have what b is sent in its place. `rules` holds routes that
are drawn against another reading of rules; here the values are written down, by RFC 1997, RFC 2622, RFC 4271 and RFC 8092.
"""
import ipaddress
import pathlib
import subprocess
import tempfile

from fuzz import KEEPALIVE, message, spelt, update

from .faults import CLIENT, TOP


# ORIGIN IGP, AS_PATH 64496, NEXT_HOP 192.0.2.11, as a four-octet peer spells them.
ROUTE = "4001010040020602010000fbf0400304c000020b"
# ROUTE, but the path is 64499 and then the set of 64496; it is empty; it is the set of 64496 and 64499.
SET = "4001010040020c02010000fbf301010000fbf0400304c000020b"
NOWHERE = "40010100400200400304c000020b"
SET_FIRST = "4001010040020a01020000fbf00000fbf3400304c000020b"
# ROUTE with NEXT_HOP 192.0.2.12.
ELSEWHERE = "4001010040020602010000fbf0400304c000020c"
# ROUTE with the communities 64500:1 and 64500:2.
COLOURED = f"{ROUTE}c00808fbf40001fbf40002"
# ROUTE with the large communities 64500:0:64497 and 64500:1:4200000000.
LARGE = f"{ROUTE}c020180000fbf4000000000000fbf10000fbf400000001fa56ea00"
# ROUTE with the communities 0:64497 and 0:59904 (4200000000 ends with these 16 bits), and the large community 64500:0:4200000000.
ACTIONS = f"{ROUTE}c008080000fbf10000ea00c0200c0000fbf400000000fa56ea00"

# Tests of a prefix, each with a prefix and whether the rule matches.
PREFIXES = (
    ('prefix = "198.51.100.0/22", min = 24, max = 24', "198.51.103.0/24", True),
    ('prefix = "198.51.100.0/22", min = 24, max = 24', "198.51.104.0/24", False),
    ('prefix = "198.51.100.0/22", min = 24, max = 24', "198.51.100.0/22", False),
    ('prefix = "198.51.100.0/22"', "198.51.100.0/22", True),
    ('prefix = "198.51.100.0/22"', "198.51.100.0/24", False),
    ('prefix = "198.51.100.0/22"', "198.51.103.0/24", False),
    ('prefix = "198.51.100.0/22"', "198.51.96.0/20", False),
    # bits behind the length are set to 0
    ('prefix = "198.51.103.9/22"', "198.51.100.0/22", True),
    # without `max` it is `min`, without `min` the prefix's length
    ('prefix = "198.51.100.0/22", min = 24', "198.51.100.0/24", True),
    ('prefix = "198.51.100.0/22", min = 24', "198.51.100.0/25", False),
    ('prefix = "198.51.100.0/22", max = 32', "198.51.100.0/22", True),
    ('prefix = "198.51.100.0/22", max = 32', "198.51.103.255/32", True),
    ('prefix = "0.0.0.0/0"', "0.0.0.0/0", True),
    ('prefix = "0.0.0.0/0"', "10.0.0.0/8", False),
    ('prefix = "0.0.0.0/0", max = 7', "8.0.0.0/7", True),
    ('prefix = "0.0.0.0/0", max = 7', "10.0.0.0/8", False),
    ('prefix = "255.255.255.255/32"', "255.255.255.255/32", True),
)

# Tests of attributes, each with attributes and whether the rule matches.
ATTRIBUTES = (
    ("origin_as = 64496", ROUTE, True),
    ("origin_as = 64499", ROUTE, False),
    # a path whose last segment is a set has no origin
    ("origin_as = 64496", SET, False),
    ("origin_as = 64499", SET, False),
    ("path_has = 64496", SET, True),
    ("path_has = 64499", SET, True),
    ("path_has = 64500", SET, False),
    # a set counts one (RFC 4271, 9.1.2.2, a)
    ("path_longer = 0", ROUTE, True),
    ("path_longer = 1", ROUTE, False),
    ("path_longer = 1", SET, True),
    ("path_longer = 2", SET, False),
    ("path_longer = 1", SET_FIRST, False),
    ("path_longer = 0", NOWHERE, False),
    ("path_longer = 4294967295", SET, False),
    # the leftmost by the position of octets (RFC 4271, 6.3)
    ("first_as_is_peer = true", ROUTE, True),
    ("first_as_is_peer = false", ROUTE, False),
    ("first_as_is_peer = true", SET, False),
    ("first_as_is_peer = false", SET, True),
    ("first_as_is_peer = true", SET_FIRST, True),
    ("first_as_is_peer = false", NOWHERE, True),
    ("next_hop_is_peer = true", ROUTE, True),
    ("next_hop_is_peer = false", ROUTE, False),
    ("next_hop_is_peer = true", ELSEWHERE, False),
    ("next_hop_is_peer = false", ELSEWHERE, True),
    ('community = "64500:1"', ROUTE, False),
    ('community = "64500:1"', COLOURED, True),
    ('community = "64500:2"', COLOURED, True),
    ('community = "64500:3"', COLOURED, False),
)

# The same of patterns of communities.
PATTERNS = (
    ('community = "64500:*"', COLOURED, True),
    ('community = "64501:*"', COLOURED, False),
    ('community = "0:*"', COLOURED, False),
    ('community = "64500:*"', ROUTE, False),
    ('large_community = "64500:0:64497"', LARGE, True),
    ('large_community = "64500:1:4200000000"', LARGE, True),
    ('large_community = "64500:1:64497"', LARGE, False),
    ('large_community = "64497:0:64500"', LARGE, False),
    ('large_community = "64500:0:*"', LARGE, True),
    ('large_community = "64500:2:*"', LARGE, False),
    ('large_community = "64500:*:*"', LARGE, True),
    ('large_community = "0:*:*"', LARGE, False),
    ('large_community = "64500:*:*"', ROUTE, False),
    # neither type is the other
    ('community = "64500:*"', LARGE, False),
    ('large_community = "64500:*:*"', COLOURED, False),
    # both tests hold, or the rule doesn't match
    ('community = "0:*", large_community = "64500:*:*"', LARGE, False),
)

# The receiver's AS number, a test, attributes, and whether the rule of its export list matches.
OF_THE_RECEIVER = (
    (64497, 'community = "0:peer"', ACTIONS, True),
    (64498, 'community = "0:peer"', ACTIONS, False),
    (64497, 'community = "peer:1"', COLOURED, False),
    (64500, 'community = "peer:1"', COLOURED, True),
    (64500, 'community = "peer:3"', COLOURED, False),
    (64500, 'community = "peer:*"', COLOURED, True),
    (64500, 'community = "peer:peer"', COLOURED, False),
    # a number of 32 bits is no part of 16
    (4200000000, 'community = "0:peer"', ACTIONS, False),
    (59904, 'community = "0:peer"', ACTIONS, True),
    (4200000000, 'large_community = "64500:0:peer"', ACTIONS, True),
    (64497, 'large_community = "64500:0:peer"', ACTIONS, False),
    (4200000000, 'large_community = "64500:1:peer"', ACTIONS, False),
    (64500, 'large_community = "peer:0:*"', ACTIONS, True),
    (64500, 'large_community = "peer:*:*"', ACTIONS, True),
    (64500, 'large_community = "0:peer:*"', ACTIONS, False),
    (1, 'large_community = "64500:peer:*"', LARGE, True),
)

# Forty prefixes, every second one of 24 bits, and one around some of them: a search goes by signs among so many.
FORTY = ", ".join(['"10.0.30.0/23^25"', *(f'"10.0.{2 * n}.0/24"' for n in range(40))])

# Entries of `prefixes`, each list with a prefix and whether it is in. The operators by the examples of RFC 2622, 2.
LISTED_PREFIXES = (
    ("", "5.0.0.0/8", False),
    ('"5.0.0.0/8"', "5.0.0.0/8", True),
    ('"5.0.0.0/8"', "5.1.0.0/16", False),
    ('"5.1.2.3/8"', "5.0.0.0/8", True),
    ('"5.0.0.0/8^+"', "5.0.0.0/8", True),
    ('"5.0.0.0/8^+"', "5.1.2.3/32", True),
    ('"5.0.0.0/8^+"', "4.0.0.0/7", False),
    ('"5.0.0.0/8^+"', "6.0.0.0/8", False),
    ('"128.9.0.0/16^-"', "128.9.0.0/16", False),
    ('"128.9.0.0/16^-"', "128.9.0.0/17", True),
    ('"128.9.0.0/16^-"', "128.9.255.0/24", True),
    ('"30.0.0.0/8^16"', "30.9.0.0/16", True),
    ('"30.0.0.0/8^16"', "30.9.0.0/17", False),
    ('"30.0.0.0/8^16"', "30.0.0.0/8", False),
    ('"30.0.0.0/8^24-32"', "30.9.9.96/28", True),
    ('"30.0.0.0/8^24-32"', "30.9.0.0/23", False),
    ('"0.0.0.0/0"', "0.0.0.0/0", True),
    ('"0.0.0.0/0^25-32"', "255.255.255.128/25", True),
    ('"0.0.0.0/0^25-32"', "255.255.255.0/24", False),
    ('"255.255.255.255/32^+"', "255.255.255.255/32", True),
    # one within another, beside each other, twice, in whatever order
    ('"10.1.0.0/16", "10.0.0.0/8^24"', "10.1.0.0/16", True),
    ('"10.1.0.0/16", "10.0.0.0/8^24"', "10.255.1.0/24", True),
    ('"10.1.0.0/16", "10.0.0.0/8^24"', "10.1.1.0/24", True),
    ('"10.1.0.0/16", "10.0.0.0/8^24"', "10.2.0.0/16", False),
    ('"10.2.0.0/16", "10.2.0.0/16", "10.1.0.0/16", "10.0.0.0/8"', "10.1.0.0/16", True),
    ('"10.2.0.0/16", "10.2.0.0/16", "10.1.0.0/16", "10.0.0.0/8"', "10.0.0.0/8", True),
    ('"10.2.0.0/16", "10.2.0.0/16", "10.1.0.0/16", "10.0.0.0/8"', "10.0.0.0/9", False),
    # the same, rising by first address, the widest first
    ('"10.0.0.0/8^24", "10.1.0.0/16"', "10.1.0.0/16", True),
    ('"10.0.0.0/8^24", "10.1.0.0/16"', "10.255.1.0/24", True),
    ('"10.0.0.0/8^24", "10.1.0.0/16"', "10.1.1.0/24", True),
    ('"10.0.0.0/8^24", "10.1.0.0/16"', "10.2.0.0/16", False),
    ('"10.0.0.0/8", "10.1.0.0/16", "10.2.0.0/16", "10.2.0.0/16"', "10.1.0.0/16", True),
    ('"10.0.0.0/8", "10.1.0.0/16", "10.2.0.0/16", "10.2.0.0/16"', "10.0.0.0/9", False),
    *((FORTY, f"10.0.{2 * n}.0/24", True) for n in (0, 1, 14, 15, 16, 17, 30, 31, 32, 39)),
    *((FORTY, f"10.0.{2 * n + 1}.0/24", False) for n in (0, 14, 15, 16, 30, 31, 39)),
    (FORTY, "9.255.255.0/24", False),
    (FORTY, "10.0.31.128/25", True),
    (FORTY, "10.0.32.0/25", False),
    (FORTY, "10.0.80.0/24", False),
)

# Entries of `ases`, each list with whether the origin 64496 is in.
LISTED_ORIGINS = (
    ("", False),
    ("64496", True),
    ("64495, 64497", False),
    ('"64496-64511"', True),
    ('"64480-64496"', True),
    ('"64497-64511"', False),
    ('"0-4294967295"', True),
    ('0, "65536-65551", "64490-64499", 64496', True),
    ('0, "64490-64499", 64496, "65536-65551"', True),
    ('0, "64490-64495", 64497, "65536-65551"', False),
    (", ".join(str(64400 + n) for n in range(97)), True),
    (", ".join(str(64400 + n) for n in range(96)), False),
    (", ".join(str(64496 + n) for n in range(97)), True),
    (", ".join(str(64497 + n) for n in range(97)), False),
)

# Entries of `ases`, each list with whether an AS number of the path 64499 and the set of 64496 is in.
LISTED_PATHS = (
    ("", False),
    ("64496", True),
    ("64499", True),
    ('0, 64495, "64497-64498", "64500-4294967295"', False),
    ('"64490-64497"', True),
    ('"64498-64510"', True),
    ('"0-4294967295"', True),
)

# What import and export rules take away, and what stands in place of the communities 64500:1 and 64500:2 behind ROUTE.
TAKEN = (
    ('strip = ["64500:*"]', "", ""),
    ('strip = ["0:*"]', 'strip = ["64501:*"]', "c00808fbf40001fbf40002"),
    ('strip = ["0:*", "64500:2"]', "", "c00804fbf40001"),
    ("", 'strip = ["64500:1"]', "c00804fbf40002"),
    ('strip = ["64500:1"]', 'strip = ["64500:2"]', ""),
    ('strip = "all"', "", ""),
    # type 32 alone
    ('strip_large = "all"', 'strip_large = ["64500:*:*"]', "c00808fbf40001fbf40002"),
)

# The same of the large communities 64500:0:64497 and 64500:1:4200000000.
TAKEN_LARGE = (
    ('strip_large = ["64500:*:*"]', "", ""),
    ("", 'strip_large = "all"', ""),
    ('strip_large = ["64500:0:*"]', 'strip_large = ["64500:2:*"]', "c0200c0000fbf400000001fa56ea00"),
    ('strip_large = ["64497:*:*"]', 'strip_large = ["64500:1:4200000000"]', "c0200c0000fbf4000000000000fbf1"),
    ('strip_large = ["64500:1:*"]', 'strip_large = ["64500:0:64497"]', ""),
    # type 8 alone
    ('strip = "all"', 'strip_large = ["64500:1:*"]', "c0200c0000fbf4000000000000fbf1"),
    ('strip = ["64500:*"]', 'strip_large = ["64500:0:64497", "64500:0:0"]', "c0200c0000fbf400000001fa56ea00"),
)

# Both members, their AS numbers and addresses; the receiver's number may be another.
SENDER, RECEIVER = ("a", 64496, 0xC000020B), ("b", 64497, 0xC000020C)
AS_TRANS, HOLD = 23456, 90
USED = 'export = [{ use = "r" }]\n'


def client(number):
    """Member b of this AS."""
    return f'[[client]]\nname = "b"\nas = {number}\nlisten = "127.0.0.1:17902"\npeer = "192.0.2.12"\n'


def drops(test):
    return f'{{ {test}, action = "drop" }}'


def config(top="", imported="", exported="", number=RECEIVER[1]):
    """A configuration of both members with this at its top, in a's import list and in b's export list."""
    return f"{TOP}{top}{CLIENT}import = [{imported}]\n{client(number)}export = [{exported}]\n"


def comes_up(name, number, address):
    """The lines by which a member comes up, with AS numbers in four octets (RFC 4271, 4.2; RFC 6793)."""
    two, four = number if number < 65_536 else AS_TRANS, number.to_bytes(4)
    opening = b"\x04" + two.to_bytes(2) + HOLD.to_bytes(2) + address.to_bytes(4) + b"\x08\x02\x06\x41\x04" + four
    return [f"open {name}", f"octets {name} {(message(1, opening) + KEEPALIVE).hex()}", f"room {name} 1000"]


def route(attributes, prefix):
    """An UPDATE of this route."""
    network = ipaddress.ip_network(prefix)
    return update(b"", bytes.fromhex(attributes), spelt((int(network.network_address), network.prefixlen)))


def session(text, sent, number):
    """The lines of a session in which a sends this, and then this text replaces the configuration."""
    return [
        *comes_up(*SENDER), *comes_up(RECEIVER[0], number, RECEIVER[2]), f"octets a {sent.hex()}", "turn", "room b 5000",
        f"rules {text.encode().hex()}", "turn", "room b 5000",
    ]


def messages(lines):
    """The kinds and the octets of the messages to a member in lines of what was written."""
    return [(bytes.fromhex(it)[18], it) for it in (line.split(" ")[2] for line in lines)]


def told(output):
    """What b is sent before its configuration is replaced and after it, behind OPEN and KEEPALIVE; or what is wrong."""
    lines = output.splitlines()
    if lines.count("rules accepted") != 1 or any(line.split(" ")[0] not in ("sent", "rules") for line in lines):
        return f"wrote {lines}"
    at, of_b = lines.index("rules accepted"), [[], []]
    for place, line in enumerate(lines):
        if line.startswith("sent b "):
            of_b[place > at].append(line)
    before, after = map(messages, of_b)
    kinds, of_a = [kind for kind, _ in before[:2]], messages([line for line in lines if line.startswith("sent a ")])
    if kinds != [1, 4] or [kind for kind, _ in of_a] != [1, 4]:
        return f"the members don't come up: {lines}"
    return [it for _, it in before[2:]], [it for _, it in after]


def differs(program, path, text, attributes, prefix, wanted, number=RECEIVER[1]):
    """What is wrong with what b is sent of a's route by a configuration, or None. Wanted are attributes, or None of a route that is dropped."""
    path.write_text(text)
    sent = route(attributes, prefix)
    trace = "\n".join(session(config(number=number), sent, number))
    run = subprocess.run([program, "--config", path], input=trace, capture_output=True, timeout=60, text=True)
    if run.returncode or run.stderr:
        return f"status {run.returncode}: {run.stderr}"
    due = [] if wanted is None else [route(wanted, prefix).hex()]
    due = due, [] if wanted == attributes else [sent.hex()]
    found = told(run.stdout)
    return None if found == due else f"{found} and not {due}"


def matched():
    """Configurations with a rule, attributes, a prefix, and whether the rule matches."""
    net = "198.51.100.0/24"
    for test, prefix, matches in PREFIXES:
        yield test, config(exported=drops(test)), ROUTE, prefix, matches
    for test, attributes, matches in ATTRIBUTES + PATTERNS:
        yield f"import {test}", config(imported=drops(test)), attributes, net, matches
        yield f"export {test}", config(exported=drops(test)), attributes, net, matches


def listed():
    """The same of rules that name a list."""
    net = "198.51.100.0/24"
    rows = [("prefix_in", "prefixes", *row, ROUTE) for row in LISTED_PREFIXES]
    for entries, is_in in LISTED_ORIGINS:
        # A path whose last segment is a set has no origin.
        rows += [("origin_in", "ases", entries, net, is_in, ROUTE), ("origin_in", "ases", entries, net, False, SET)]
    for entries, is_in in LISTED_PATHS:
        rows += [("path_in", "ases", entries, net, is_in, SET), ("path_in", "ases", entries, net, False, NOWHERE)]
    for key, kind, entries, prefix, is_in, attributes in rows:
        top, rule = f'[[list]]\nname = "l"\n{kind} = [{entries}]\n', drops(f'{key} = "l"')
        yield f"import {key} [{entries}]", config(top, imported=rule), attributes, prefix, is_in
        yield f"export {key} [{entries}]", config(top, exported=rule), attributes, prefix, is_in


def play_rows(program, path):
    """Tries each row: what was tried, and what is wrong or None."""
    net = "198.51.100.0/24"
    for name, text, attributes, prefix, matches in (*matched(), *listed()):
        wanted = None if matches else attributes
        yield f"rule {name}: {prefix} {attributes}", differs(program, path, text, attributes, prefix, wanted)
    for number, test, attributes, matches in OF_THE_RECEIVER:
        # In b's export list, and in rules that it uses.
        used = f'{TOP}[[rules]]\nname = "r"\nrules = [{drops(test)}]\n{CLIENT}{client(number)}{USED}'
        for name, text in (("export", config(exported=drops(test), number=number)), ("use", used)):
            wrong = differs(program, path, text, attributes, net, None if matches else attributes, number)
            yield f"rule {name} {test} of AS {number}: {attributes}", wrong
    for table, attributes in ((TAKEN, COLOURED), (TAKEN_LARGE, LARGE)):
        for imported, exported, rest in table:
            rules = [f'{{ action = "pass"{", " if strip else ""}{strip} }}' for strip in (imported, exported)]
            wrong = differs(program, path, config("", *rules), attributes, net, ROUTE + rest)
            yield f"rules that take away {imported}, {exported}: {attributes}", wrong


def play_matching(program):
    """Tries all: what was tried, and what is wrong or None."""
    with tempfile.TemporaryDirectory() as folder:
        yield from play_rows(program, pathlib.Path(folder, "given.toml"))


def by_words(words):
    """The results, by the words of a command behind the play's name; None where these are others."""
    if len(words) == 1:
        return play_matching(pathlib.Path(words[0]).resolve())
    return None
