"""Gives files of configurations to `rs_served --check`, and says what it answers otherwise than it must.

play.py checks PROGRAM

Each row of FAULTS makes one change to GOOD, a configuration in which nothing is wrong, and has the lines that must come on
standard error, with status 2 and nothing on standard output. Where a line and a column are told, they are looked up in the
text: there must stand what the row says. WARNINGS are rows of good configurations, likewise, with status 0. All is asked again of
the text cut into several files, whose last lines lack their ends: the file that a line names is where it is looked up. Then what
can't be read: no file, a folder, a file without rights, one that isn't UTF-8, among several too; and more faults than are told.
"""
import os
import pathlib
import re
import subprocess
import tempfile


GOOD = """\
as = 64500
identifier = "192.0.2.1"
multiprotocol = true

[[client]] # the first
name = "alpha"
as = 64496
listen = "127.0.0.1:17901"
peer = "192.0.2.11"
import = [
    { prefix = "10.0.0.0/8", max = 32, action = "drop" }, # private
    { prefix_in = "own", path_in = "own", path_has = 64496, action = "pass", strip = ["0:1", '0:2'] },
    { action = "drop" },
]

[[client]]
name = "beta"
as = 64497
listen = "127.0.0.1:17902"
peer = "192.0.2.12"

[[client.import]]
from = "beta"
action = "drop"

[[client.import]]
action = "pass"

[[client.export]]
use = "last"

[[rules]]
name = "last"
rules = [{ path_has = 64999, action = "drop" }]

[[list]]
name = "own"
prefixes = ["198.51.100.0/24", "203.0.113.0/24^25-26"]
ases = [64496]
"""

AS_FORM = "an integer of 1 to 4294967295"
COMMUNITY_FORM = '"N:M", both 0 to 65535 without leading zeros; M may be *'
LARGE_FORM = '"A:B:C", each 0 to 4294967295 without leading zeros; C, or B and C, may be *'
STRIP_FORM = '"all" or at most 64 communities "N:M" or "N:*", beside action = "pass"'
STRIP_LARGE_FORM = '"all" or at most 64 large communities "A:B:C", "A:B:*" or "A:*:*", beside action = "pass"'
NAME_FORM = "a text of 1 to 32 ASCII letters, digits and hyphens"
PREFIXES_FORM = "an array of at most 1048576 prefixes"
ENTRY_FORM = 'a prefix, as "198.51.100.0/24", or one with a range of lengths, as "198.51.100.0/24^25-32"'
NUMBERS_FORM = 'an integer of 0 to 4294967295, or a text of the least and the greatest, as "64512-65534"'
# The list's prefixes, and the rule that is used, as GOOD has them.
PREFIXES = 'prefixes = ["198.51.100.0/24", "203.0.113.0/24^25-26"]'
LAST = 'path_has = 64999, action = "drop"'
CLIENT_KEYS = "name as listen peer limit import export"
RULE_KEYS = (
    "prefix min max prefix_in from path_has path_longer path_in origin_as origin_in first_as_is_peer community "
    "large_community next_hop_is_peer action preference strip strip_large"
)

# What is changed, into what, the lines, and what stands at each line and column that they tell.
FAULTS = (
    ("as = 64500", "as = 0", ["bad value as", f"@as = 0; expected: {AS_FORM}"], ["0"]),
    ("as = 64500\n", "", ["missing as", f"expected: as = {AS_FORM}"], []),
    ('"192.0.2.1"', '"192.0.2.256"', ["bad value identifier", '@identifier = "192.0.2.256"; expected: an address other than 0.0.0.0, as "192.0.2.1"'], ['"192.0.2.256"']),
    ("as = 64500", "as = 64500\nhold = 2", ["bad value hold", "@hold = 2; expected: an integer: 0, or 3 to 65535"], ["2\n"]),
    ("as = 64500", "as = 64500\ndefault = 'permit'", ["bad value default", """@default = 'permit'; expected: "pass" or "drop\""""], ["'permit'"]),
    ("multiprotocol = true", 'multiprotocol = "yes"', ["bad value multiprotocol", '@multiprotocol = "yes"; expected: true or false'], ['"yes"']),
    ("as = 64500", "as 64500", ["syntax", "@MESSAGE"], ["64500"]),
    ('name = "beta"', 'name = "beta"\nname = "gamma"', ["syntax", "@MESSAGE"], ['name = "gamma"']),
    ("as = 64497", "as = 64_496_000_000", ["bad value client 2 as", f"@as = 64_496_000_000; expected: {AS_FORM}"], ["64_496"]),
    ('peer = "192.0.2.12"\n', "", ["missing client 2 peer", '@expected: peer = an address, as "192.0.2.11"'], ["[[client]]\nname = \"beta\""]),
    ("127.0.0.1:17902", "127.0.0.1", ["bad value client 2 listen", '@listen = "127.0.0.1"; expected: an address and a port of 1 to 65535, as "192.0.2.1:179"'], ['"127.0.0.1"\n']),
    ('peer = "192.0.2.12"', 'peer = "192.0.2.12"\npeeer = 1', ["bad value client 2 ?", f"@not known here: peeer; known: {CLIENT_KEYS}"], ["1\n"]),
    ('name = "beta"', 'name = "alpha"', ["twice client 2", "@client 1 has this name too"], ["[[client]]\nname"]),
    ('127.0.0.1:17902"\npeer = "192.0.2.12"', '127.0.0.1:17901"\npeer = "192.0.2.11"', ["twice client 2", "@client 1 has this listen and peer too"], ["[[client]]\nname"]),
    ('{ prefix = "10.0.0.0/8", max = 32,', '{ prefix = "10.0.0.0/8", max = 7,', ["bad value client 1 import 1 max", "@max = 7; expected: an integer from min to 32, beside prefix"], ["7, action"]),
    ("path_has = 64496", "pathhas = 64496", ["bad value client 1 import 2 ?", f"@not known here: pathhas; known: {RULE_KEYS}"], ["64496, action"]),
    ("path_has = 64496", "path_longer = -1", ["bad value client 1 import 2 path_longer", "@path_longer = -1; expected: an integer of 0 to 4294967295"], ["-1, action"]),
    ('path_in = "own"', 'path_in = "beta"', ["bad value client 1 import 2 path_in", '@path_in = "beta"; expected: the name of a list that has ases'], ['"beta", path_has']),
    ("path_has = 64496", "first_as_is_peer = 1", ["bad value client 1 import 2 first_as_is_peer", "@first_as_is_peer = 1; expected: true or false"], ["1, action"]),
    ("'0:2'", "'0:70000'", ["bad value client 1 import 2 strip", f"""@strip = ["0:1", '0:70000']; expected: {STRIP_FORM}"""], ['["0:1"']),
    ('from = "beta"', 'from = "delta"', ["bad value client 2 import 1 from", '@from = "delta"; expected: the name of a client'], ['"delta"']),
    ('from = "beta"\naction = "drop"', 'from = "beta"', ["missing client 2 import 1 action", '@expected: action = "pass" or "drop"'], ['[[client.import]]\nfrom']),
    ("{ action = \"drop\" }", "{ }", ["missing client 1 import 3 action", '@expected: action = "pass" or "drop"'], ["{ },"]),
    ('"203.0.113.0/24^25-26"', '"203.0.113.0/24^23"', ["bad value list 1 prefixes 2", '@"203.0.113.0/24^23"; expected: a prefix, as "198.51.100.0/24", or one with a range of lengths, as "198.51.100.0/24^25-32"'], ['"203.0.113.0/24^23"']),
    ("ases = [64496]", "ases = [64496, -1]", ["bad value list 1 ases 2", '@-1; expected: an integer of 0 to 4294967295, or a text of the least and the greatest, as "64512-65534"'], ["-1]"]),
    ('name = "own"', 'name = "own"\nases = [1]\n[[list]]\nname = "own"', ["twice list 2", "@list 1 has this name too"], ['[[list]]\nname = "own"\nprefixes']),
    ("ases = [64496]", f"ases = {'x' * 70!r}", ["bad value list 1 ases", f"@ases = '{'x' * 59}..; expected: an array of at most 1048576 AS numbers"], ["'xxx"]),
    ("ases = [64496]", "ases = '''\nmuch'''", ["bad value list 1 ases", "@ases = '''..; expected: an array of at most 1048576 AS numbers"], ["'''\nmuch"]),
    ("strip = [", 'strip = [' + '"1:1", ' * 63, ["too many client 1 import 2 strip", f"@strip has 65; expected: {STRIP_FORM}"], ['["1:1"']),
    ("path_has = 64496", 'community = "*:1"', ["bad value client 1 import 2 community", f'@community = "*:1"; expected: {COMMUNITY_FORM}'], ['"*:1"']),
    ("path_has = 64496", 'large_community = "1:0:peer"', ["bad value client 1 import 2 large_community", f'@large_community = "1:0:peer"; expected: {LARGE_FORM}'], ['"1:0:peer"']),
    ("path_has = 64999", 'community = "peer"', ["bad value rules 1 rules 1 community", f'@community = "peer"; expected: {COMMUNITY_FORM}, each may be peer'], ['"peer"']),
    ("path_has = 64999", 'large_community = "1:*:0"', ["bad value rules 1 rules 1 large_community", f'@large_community = "1:*:0"; expected: {LARGE_FORM}, each may be peer'], ['"1:*:0"']),
    ("strip = [", 'strip_large = ["1:1", ', ["bad value client 1 import 2 strip_large", f'''@strip_large = ["1:1", "0:1", '0:2']; expected: {STRIP_LARGE_FORM}'''], ['["1:1"']),
    ("strip = [", 'strip_large = [' + '"1:1:1", ' * 63, ["too many client 1 import 2 strip_large", f"@strip_large has 65; expected: {STRIP_LARGE_FORM}"], ['["1:1:1"']),
    (
        '[[client.export]]\nuse = "last"\n\n[[rules]]\nname = "last"\nrules = [{ path_has = 64999',
        '[[client.import]]\nuse = "last"\n\n[[rules]]\nname = "last"\nrules = [{ community = "0:peer"',
        ["bad value client 2 import 3 use", '@use = "last"; expected: the name of rules that others use, none of which has peer'],
        ['"last"\n\n[[rules]]'],
    ),
    ('use = "last"', 'use = "least"', ["bad value client 2 export 1 use", '@use = "least"; expected: the name of rules that others use'], ['"least"']),
    ('use = "last"', 'use = "last"\naction = "drop"', ["bad value client 2 export 1 ?", "@not known here: action; known: use"], ['"drop"\n\n[[rules]]']),
    ("path_has = 64999", "path_has = 0", ["bad value rules 1 rules 1 path_has", f"@path_has = 0; expected: {AS_FORM}"], ["0, action"]),
    ("path_has = 64999", 'use = "last", path_has = 64999', ["bad value rules 1 rules 1 ?", f"@not known here: use; known: {RULE_KEYS}"], ['"last", path_has']),
    ('name = "last"\n', 'name = "last"\nrules = []\n[[rules]]\nname = "last"\n', ["twice rules 2", "@rules 1 has this name too"], ['[[rules]]\nname = "last"\nrules = [{']),
    (
        "rules = [{",
        "ruls = [{",
        ["missing rules 1 rules", "@expected: rules = an array of at most 64 tables", "bad value rules 1 ?", "@not known here: ruls; known: name rules"],
        ['[[rules]]', "[{ path_has"],
    ),
    # Of lists and of rules that others use: each key's fault with its place, and arrays that are too long. The tables [[list]] are indented, so
    # that each file has many.
    ("[[list]]", "".join(f'  [[list]]\n  name = "l{at}"\n  ases = []\n' for at in range(1024)) + "[[list]]", ["too many list", "list has 1025; expected: at most 1024 tables [[list]]"], []),
    ("[[rules]]", "".join(f'[[rules]]\nname = "r{at}"\nrules = []\n' for at in range(256)) + "[[rules]]", ["too many rules", "rules has 257; expected: at most 256 tables [[rules]]"], []),
    ("rules = [{", "rules = [" + "{}, " * 64 + "{", ["too many rules 1 rules", "@rules has 65; expected: an array of at most 64 tables"], ["[{}, {}"]),
    ('name = "own"\n', "", ["missing list 1 name", f"@expected: name = {NAME_FORM}"], ["[[list]]"]),
    ('name = "last"\n', "", ["missing rules 1 name", f"@expected: name = {NAME_FORM}"], ["[[rules]]"]),
    ('name = "last"\n', "name = 1\n", ["bad value rules 1 name", f"@name = 1; expected: {NAME_FORM}"], ["1\n"]),
    ('name = "own"', 'name = "o wn"', ["bad value list 1 name", f'@name = "o wn"; expected: {NAME_FORM}'], ['"o wn"']),
    (f"{PREFIXES}\nases = [64496]\n", "", ["missing list 1 prefixes", f"@expected: prefixes = {PREFIXES_FORM}"], ["[[list]]"]),
    (PREFIXES, 'prefixes = "198.51.100.0/24"', ["bad value list 1 prefixes", f'@prefixes = "198.51.100.0/24"; expected: {PREFIXES_FORM}'], ['"198.51.100.0/24"\n']),
    ('"198.51.100.0/24", "203', '"198.51.100.0/24^33", "203', ["bad value list 1 prefixes 1", f'@"198.51.100.0/24^33"; expected: {ENTRY_FORM}'], ['"198.51.100.0/24^33"']),
    ('"198.51.100.0/24", "203', '"198.51.100.0/24^26-25", "203', ["bad value list 1 prefixes 1", f'@"198.51.100.0/24^26-25"; expected: {ENTRY_FORM}'], ['"198.51.100.0/24^26-25"']),
    ('"198.51.100.0/24", "203', '"198.51.100.0^24", "203', ["bad value list 1 prefixes 1", f'@"198.51.100.0^24"; expected: {ENTRY_FORM}'], ['"198.51.100.0^24"']),
    ("ases = [64496]", 'ases = ["64497-64496"]', ["bad value list 1 ases 1", f'@"64497-64496"; expected: {NUMBERS_FORM}'], ['"64497-64496"']),
    ("ases = [64496]", "ases = [4294967296]", ["bad value list 1 ases 1", f"@4294967296; expected: {NUMBERS_FORM}"], ["4294967296"]),
    ('rules = [{ path_has = 64999, action = "drop" }]', "rules = 1", ["bad value rules 1 rules", "@rules = 1; expected: an array of at most 64 tables"], ["1\n"]),
    ('path_in = "own"', 'origin_in = "beta"', ["bad value client 1 import 2 origin_in", '@origin_in = "beta"; expected: the name of a list that has ases'], ['"beta", path_has']),
    ('prefix_in = "own"', 'prefix_in = "beta"', ["bad value client 1 import 2 prefix_in", '@prefix_in = "beta"; expected: the name of a list that has prefixes'], ['"beta", path_in']),
    ('prefix_in = "own"', "prefix_in = 1", ["bad value client 1 import 2 prefix_in", "@prefix_in = 1; expected: the name of a list that has prefixes"], ["1, path_in"]),
    ('use = "last"', 'use = ["last"]', ["bad value client 2 export 1 use", '@use = ["last"]; expected: the name of rules that others use'], ['["last"]']),
    ("path_has = 64496", 'community = "0:peer"', ["bad value client 1 import 2 community", f'@community = "0:peer"; expected: {COMMUNITY_FORM}'], ['"0:peer"']),
    (LAST, 'action = "pass", strip = [' + '"1:1", ' * 65 + "]", ["too many rules 1 rules 1 strip", f"@strip has 65; expected: {STRIP_FORM}"], ['["1:1"']),
    (LAST, 'action = "pass", strip_large = [' + '"1:1:1", ' * 65 + "]", ["too many rules 1 rules 1 strip_large", f"@strip_large has 65; expected: {STRIP_LARGE_FORM}"], ['["1:1:1"']),
    (LAST, 'action = "pass", strip = ["0:peer"]', ["bad value rules 1 rules 1 strip", f'@strip = ["0:peer"]; expected: {STRIP_FORM}'], ['["0:peer"]']),
    (LAST, 'action = "pass", strip_large = ["1:0:peer"]', ["bad value rules 1 rules 1 strip_large", f'@strip_large = ["1:0:peer"]; expected: {STRIP_LARGE_FORM}'], ['["1:0:peer"]']),
    ("path_has = 64999", 'prefix_in = "last"', ["bad value rules 1 rules 1 prefix_in", '@prefix_in = "last"; expected: the name of a list that has prefixes'], ['"last", action']),
    ("path_has = 64999", 'path_in = "last"', ["bad value rules 1 rules 1 path_in", '@path_in = "last"; expected: the name of a list that has ases'], ['"last", action']),
    ("path_has = 64999", "origin_in = 64496", ["bad value rules 1 rules 1 origin_in", "@origin_in = 64496; expected: the name of a list that has ases"], ["64496, action"]),
    ("path_has = 64999", "path_longer = 4294967296", ["bad value rules 1 rules 1 path_longer", "@path_longer = 4294967296; expected: an integer of 0 to 4294967295"], ["4294967296, action"]),
    ("path_has = 64999", 'first_as_is_peer = "true"', ["bad value rules 1 rules 1 first_as_is_peer", '@first_as_is_peer = "true"; expected: true or false'], ['"true", action']),
    ("path_has = 64999", 'community = "1:65536"', ["bad value rules 1 rules 1 community", f'@community = "1:65536"; expected: {COMMUNITY_FORM}, each may be peer'], ['"1:65536"']),
    ("path_has = 64999", 'large_community = "1:0:4294967296"', ["bad value rules 1 rules 1 large_community", f'@large_community = "1:0:4294967296"; expected: {LARGE_FORM}, each may be peer'], ['"1:0:4294967296"']),
    # Several faults, told in the order in which they are found, none of which comes of how another was mended.
    (
        'identifier = "192.0.2.1"',
        "hold = 1",
        ["missing identifier", 'expected: identifier = an address other than 0.0.0.0, as "192.0.2.1"', "bad value hold", "@hold = 1; expected: an integer: 0, or 3 to 65535"],
        ["1\n"],
    ),
    (
        '[[client]]\nname = "beta"\nas = 64497',
        '[[client]]\nname = "b\u00e9ta"\nas = "64497"',
        [
            "bad value client 2 name",
            '@name = "b\u00e9ta"; expected: a text of 1 to 32 ASCII letters, digits and hyphens',
            "bad value client 2 as",
            f'@as = "64497"; expected: {AS_FORM}',
        ],
        ['"b\u00e9ta"', '"64497"'],
    ),
    (
        'prefix = "10.0.0.0/8", max = 32, action = "drop"',
        'prefix = "10.0.0.0/33", max = 32, action = "deny", q = 1, r = { q = [1, "}"] }',
        [
            "bad value client 1 import 1 prefix",
            '@prefix = "10.0.0.0/33"; expected: an address and a length of 0 to 32, as "198.51.100.0/24"',
            "bad value client 1 import 1 action",
            '@action = "deny"; expected: "pass" or "drop"',
            "bad value client 1 import 1 ?",
            f"@not known here: q r; known: {RULE_KEYS}",
        ],
        ['"10.0.0.0/33"', '"deny"', "1, r"],
    ),
    (
        '{ action = "drop" }',
        '{ min = 8, max = 7, action = "drop", preference = 1, strip = "all" }',
        [
            "bad value client 1 import 3 min",
            "@min = 8; expected: an integer from the length of prefix, which has to be there, to 32",
            "bad value client 1 import 3 max",
            "@max = 7; expected: an integer from min to 32, beside prefix",
            "bad value client 1 import 3 preference",
            '@preference = 1; expected: an integer of 0 to 4294967295, beside action = "pass"',
            "bad value client 1 import 3 strip",
            f'@strip = "all"; expected: {STRIP_FORM}',
        ],
        ["8, max", "7, action", "1, strip", '"all"'],
    ),
    # A rule names a list that has no prefixes: that comes of the list.
    ("prefixes = [", "prefixs = [", ["bad value list 1 ?", "@not known here: prefixs; known: name prefixes ases"], ['["198']),
    ("ases = [", "as = [", ["bad value list 1 ?", "@not known here: as; known: name prefixes ases"], ["[64496]"]),
    # A list that has only ases is not told to lack prefixes where these are bad.
    (f"{PREFIXES}\nases = [64496]", "ases = 1", ["bad value list 1 ases", "@ases = 1; expected: an array of at most 1048576 AS numbers"], ["1\n"]),
)

WARNINGS = (
    ("", "", [], []),
    ("multiprotocol = true", "", ["multiprotocol is off, and BIRD and OpenBGPD need it"], []),
    ("multiprotocol = true", "multiprotocol = false", ["@multiprotocol is off, and BIRD and OpenBGPD need it"], ["false"]),
    ('[[client.import]]\nfrom = "beta"\naction = "drop"\n\n[[client.import]]\naction = "pass"', "import = []", ["@client 2 has no import rules"], ['[[client]]\nname = "beta"']),
    ('    { prefix = "10.0.0.0/8", max = 32, ', '    { prefix = "0.0.0.0/0", max = 32, ', ["@client 1 import 2 is never reached: a rule before it matches every route"], ["{ prefix_in"]),
    ('    { prefix = "10.0.0.0/8", max = 32, ', '    { prefix = "0.0.0.0/0", max = 31, ', [], []),
    ('    { prefix = "10.0.0.0/8", max = 32, ', '    { prefix = "0.0.0.0/0", min = 1, max = 32, ', [], []),
    ('from = "beta"\n', "", ["@client 2 import 2 is never reached: a rule before it matches every route"], ['[[client.import]]\naction = "pass"']),
    ('from = "beta"', "path_longer = 0", [], []),
    ('from = "beta"', 'large_community = "64500:*:*"', [], []),
    ('from = "beta"', "first_as_is_peer = false", [], []),
    ('use = "last"', 'action = "drop"', ["@rules 1 are used by no client"], ["[[rules]]"]),
    ("[{ path_has = 64999", '[{ action = "pass" }, { path_has = 64999', ["@rules 1 rules 2 is never reached: a rule before it matches every route"], ["{ path_has = 64999"]),
    ('prefix_in = "own", path_in = "own", ', "", ["@list 1 is named by no rule"], ["[[list]]"]),
    ('prefix_in = "own", path_in = "own", ', 'prefix_in = "own", ', [], []),
    ('prefix_in = "own", path_in = "own", ', 'path_in = "own", ', [], []),
    ('prefix_in = "own", path_in = "own", ', 'origin_in = "own", ', [], []),
)


def asked(program, *paths, **more):
    words = [word for path in paths for word in ("--config", path)]
    return subprocess.run([program, "--check", *words], capture_output=True, timeout=60, **more)


def cut(folder, text):
    """A text cut into files before the second client and each list, without the ends of their last lines."""
    parts = re.split(r"\n+(?=\[\[client\]\]\n|\[\[list\]\])", text)
    paths = [pathlib.Path(folder, f"part-{at}.toml") for at in range(len(parts))]
    for path, part in zip(paths, parts):
        path.write_text(part)
    return paths


def offset(text, line, column):
    """Where a line and a column, both from 1, stand in a text."""
    lines = text.split("\n")
    return sum(len(it) + 1 for it in lines[: line - 1]) + column - 1


def placed(texts, line):
    """What stands where a line says that something is, in one of several texts, and what it says of it; None where it tells no place."""
    if len(texts) == 1:
        at = re.fullmatch(r"()line (\d+), column (\d+): (.*)", line)
    else:
        at = re.fullmatch(r"(\S+), line (\d+), column (\d+): (.*)", line)
    if not at:
        return None
    text = texts[at[1]] + "\n"
    return text[offset(text, int(at[2]), int(at[3])) :], at[4]


def lines_differ(texts, lines, wanted, stand):
    """What is wrong with lines, of which those that are wanted with @ begin with a place in one of the texts; or None."""
    stand = list(stand)
    if len(lines) != len(wanted):
        return f"{lines} and not {wanted}"
    for line, want in zip(lines, wanted):
        if want.startswith("@"):
            at = placed(texts, line)
            if not at:
                return f"{line!r} tells no place"
            there, line = at
            if not there.startswith(stand[0]):
                return f"{line!r}: {there[:20]!r} stands there, and not {stand[0]!r}"
            stand.pop(0)
            want = want[1:]
        if want != "MESSAGE" and line != want:
            return f"{line!r} and not {want!r}"
    return f"not told: {stand}" if stand else None


def texts_of(paths):
    """The text of each file by its path; that of one file by nothing."""
    return {"" if len(paths) == 1 else str(path): path.read_text() for path in paths}


def fault_differs(program, write, old, new, wanted, stand):
    """What is wrong with what is told of GOOD with a change, or None. Each second line names a fault."""
    text = GOOD.replace(old, new, 1)
    if text == GOOD or GOOD.count(old) != 1:
        return f"{old!r} doesn't stand once"
    paths = write(text)
    run = asked(program, *paths)
    if (run.returncode, run.stdout) != (2, b""):
        return f"status {run.returncode}, {run.stdout}"
    lines = run.stderr.decode().splitlines()
    heads = [f"configuration: {it}" for it in wanted[::2]]
    if lines[::2] != heads:
        return f"{lines[::2]} and not {heads}: {lines[1::2]}"
    return lines_differ(texts_of(paths), lines[1::2], wanted[1::2], stand)


def warning_differs(program, write, old, new, wanted, stand):
    """What is wrong with the warnings of GOOD with a change, or None."""
    paths = write(GOOD.replace(old, new, 1) if old else GOOD)
    run = asked(program, *paths)
    if (run.returncode, run.stdout) != (0, b"configuration: good, 2 clients\n"):
        return f"status {run.returncode}, {run.stdout}, {run.stderr}"
    lines = run.stderr.decode().splitlines()
    if any(not it.startswith("warning: ") for it in lines):
        return f"{lines}"
    return lines_differ(texts_of(paths), [it[len("warning: ") :] for it in lines], wanted, stand)


def stray_differs(program, folder):
    """What is wrong with what is told of a file that begins with a key of the table before it, or None."""
    top, rest = GOOD.split("\n\n", 1)
    head, last = rest.rsplit("\n", 2)[0], "# of the list\n\n  " + rest.rsplit("\n", 2)[1]
    paths = [pathlib.Path(folder, name) for name in ("top.toml", "more.toml", "rest.toml", "last.toml")]
    for path, text in zip(paths, (top, "refresh = true\n", head, last)):
        path.write_text(text)
    run = asked(program, *paths)
    told = f"warning: {paths[3]}, line 3, column 3: this belongs to the last table of the file before\n"
    if (run.returncode, run.stdout, run.stderr.decode()) != (0, b"configuration: good, 2 clients\n", told):
        return f"status {run.returncode}, {run.stdout}, {run.stderr} and not {told!r}"
    return None


def unread(program, path, wanted, *paths, **more):
    """What is wrong with what is told of a file that can't be read, among these, or None."""
    run = asked(program, *(paths or [path]), **more)
    told = f"configuration: unreadable\n{wanted}\n"
    if (run.returncode, run.stdout, run.stderr.decode()) != (2, b"", told):
        return f"status {run.returncode}, {run.stdout}, {run.stderr} and not {told!r}"
    return None


def many_differ(program, path):
    """What is wrong with what is told of more faults than are told, or None."""
    rules = "".join(f"    {{ path_has = {-at}, action = 'drop' }},\n" for at in range(30))
    text = GOOD.replace("import = [\n", f"import = [\n{rules}")
    path.write_text(text)
    lines = asked(program, path).stderr.decode().splitlines()
    heads = [f"configuration: bad value client 1 import {at + 1} path_has" for at in range(20)]
    if lines[0:40:2] != heads or lines[40:] != ["there are more"]:
        return f"{lines}"
    wanted = [f"@path_has = {-at}; expected: {AS_FORM}" for at in range(20)]
    return lines_differ({"": text}, lines[1:40:2], wanted, [f"{-at}, action" for at in range(20)])


def play_checks(program):
    """Tries all: what was tried, and what is wrong or None."""
    with tempfile.TemporaryDirectory() as folder:
        path = pathlib.Path(folder, "given.toml")
        for kind, write in ("a file", lambda text: [path] if path.write_text(text) else []), ("files", lambda text: cut(folder, text)):
            for old, new, wanted, stand in FAULTS:
                yield f"--check of {kind}: {', '.join(wanted[::2])}", fault_differs(program, write, old, new, wanted, stand)
            for old, new, wanted, stand in WARNINGS:
                yield f"--check of {kind} warns: {wanted}", warning_differs(program, write, old, new, wanted, stand)
        yield "--check warns of a key before the first table of a file", stray_differs(program, folder)
        yield "--check tells at most 20 faults", many_differ(program, path)
        yield "--check: no file", unread(program, path.with_name("none.toml"), "there is no such file")
        yield "--check: a folder", unread(program, folder, "it is a folder")
        good = pathlib.Path(folder, "good.toml")
        good.write_text(GOOD)
        none = path.with_name("none.toml")
        yield "--check: no second file", unread(program, none, f"{none}: there is no such file", good, none)
        path.write_bytes("# caf\u00e9 ".encode() + b"\xe9\n")
        yield "--check: not UTF-8", unread(program, path, "line 1, column 8: not UTF-8")
        yield "--check: the third file isn't UTF-8", unread(program, path, f"{path}, line 1, column 8: not UTF-8", good, good, path)
        path.chmod(0)
        nobody = {} if os.geteuid() else {"user": 65534, "group": 65534}
        yield "--check: no rights", unread(program, path, "there are no rights to read it", **nobody)


def by_words(words):
    """The results, by the words of a command behind the play's name; None where these are others."""
    if len(words) == 1:
        return play_checks(pathlib.Path(words[0]).resolve())
    return None
