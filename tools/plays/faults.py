"""Gives texts of configurations to a built rs_replay, and says of which it tells another fault than it must.

play.py faults PROGRAM

A row is a part of a configuration and the first fault of the whole, as it is printed on standard error with status 2, or "good": then
nothing is printed, with status 0. What stands before the part and behind it is named where rows are put together. TOPS and SECONDS are
parts of a configuration that replaces the one that runs, by a line `rules` of a trace, with what is answered. Each first fault at each
key is here; where it stands in the text, and what more is wrong, `checks` asks `rs_served --check`.
"""
import pathlib
import subprocess
import tempfile


TOP = 'as = 64500\nidentifier = "192.0.2.1"\n'
CLIENT = '[[client]]\nname = "a"\nas = 64496\nlisten = "127.0.0.1:17901"\npeer = "192.0.2.11"\n'
OTHER = '[[client]]\nname = "b"\nas = 64497\nlisten = "127.0.0.1:17902"\npeer = "192.0.2.12"\n'

# No document, and the first two keys.
AT_THE_TOP = (
    # no document
    ("as = ", "syntax"),
    ("as = 1\nas = 1\n", "syntax"),
    ("as = 9223372036854775808\n", "syntax"),
    # each key in its turn, whatever comes after it
    ("", "missing as"),
    ('as = "64500"\n', "bad value as"),
    ("as = 0\n", "bad value as"),
    ("as = 4294967296\n", "bad value as"),
    ("as = -1\n", "bad value as"),
    ("as = 64500.0\n", "bad value as"),
    ("as = 64500\n", "missing identifier"),
    ("as = 64500\nidentifier = 1\n", "bad value identifier"),
    ('as = 64500\nidentifier = "0.0.0.0"\n', "bad value identifier"),
    ('as = 64500\nidentifier = "192.0.2"\n', "bad value identifier"),
    ('as = 64500\nidentifier = "192.0.2.1."\n', "bad value identifier"),
    ('as = 64500\nidentifier = "192.0.2.01"\n', "bad value identifier"),
    ('as = 64500\nidentifier = "192.0.2.256"\n', "bad value identifier"),
    ('as = 64500\nidentifier = " 192.0.2.1"\n', "bad value identifier"),
    ('as = 64500\nidentifier = "192.0.+2.1"\n', "bad value identifier"),
)

# Behind the first two keys.
BEHIND_TOP = (
    ("hold = 1\n", "bad value hold"),
    ("hold = 2\n", "bad value hold"),
    ("hold = 65536\n", "bad value hold"),
    ("hold = -1\n", "bad value hold"),
    ('hold = "90"\n', "bad value hold"),
    ("hold = 90.0\n", "bad value hold"),
    ("hold = true\n", "bad value hold"),
    ('default = "reject"\n', "bad value default"),
    ("default = true\n", "bad value default"),
    ("extended = 1\n", "bad value extended"),
    ('refresh = "true"\n', "bad value refresh"),
    ("multiprotocol = 1979-05-27\n", "bad value multiprotocol"),
    ("", "missing client"),
    ("client = []\n", "missing client"),
    ("client = [1]\n", "bad value client"),
    ("client = {}\n", "bad value client"),
    ('client = "a"\n', "bad value client"),
    ("colour = 1\n", "missing client"),
    ("colour = 1\nclient = [{}]\n", "bad value ?"),
    ("client = [{}]\n", "missing client 1 name"),
)

# Behind a first client: the clients' keys before any list, and an import list and its rules before the export list.
BEHIND_CLIENT = (
    ("import = [{}]\n[[client]]\n", "missing client 2 name"),
    ("export = 1\nimport = [{}]\n", "missing client 1 import 1 action"),
    ('export = [{}]\nimport = [{ action = "pass" }]\n', "missing client 1 export 1 action"),
    ('import = [{ colour = 1, action = "pass" }, {}]\n', "bad value client 1 import 1 ?"),
)

# The keys of a second client.
IN_A_CLIENT = (
    ("", "missing client 2 name"),
    ("name = 1\n", "bad value client 2 name"),
    ('name = ""\n', "bad value client 2 name"),
    ('name = "a b"\n', "bad value client 2 name"),
    ('name = "abcdefghijklmnopqrstuvwxyz0123456"\n', "bad value client 2 name"),
    ('name = "A-z0"\n', "missing client 2 as"),
    ('name = "b"\nas = 0\n', "bad value client 2 as"),
    ('name = "b"\nas = "1"\n', "bad value client 2 as"),
    ('name = "b"\nas = 1\n', "missing client 2 listen"),
    ('name = "b"\nas = 1\nlisten = 1\n', "bad value client 2 listen"),
    ('name = "b"\nas = 1\nlisten = "127.0.0.1"\n', "bad value client 2 listen"),
    ('name = "b"\nas = 1\nlisten = "127.0.0.1:0"\n', "bad value client 2 listen"),
    ('name = "b"\nas = 1\nlisten = "127.0.0.1:0179"\n', "bad value client 2 listen"),
    ('name = "b"\nas = 1\nlisten = "127.0.0.1:65536"\n', "bad value client 2 listen"),
    ('name = "b"\nas = 1\nlisten = "0.0.0.0:65535"\n', "missing client 2 peer"),
    ('name = "b"\nas = 1\nlisten = "0.0.0.0:1"\npeer = 1\n', "bad value client 2 peer"),
    ('name = "b"\nas = 1\nlisten = "0.0.0.0:1"\npeer = "::1"\n', "bad value client 2 peer"),
    ('name = "b"\nas = 1\nlisten = "0.0.0.0:1"\npeer = "0.0.0.0"\n', "good"),
    ('name = "b"\nas = 1\nlisten = "0.0.0.0:1"\npeer = "0.0.0.0"\nlimit = 0\n', "bad value client 2 limit"),
    ('name = "b"\nas = 1\nlisten = "0.0.0.0:1"\npeer = "0.0.0.0"\nlimit = 4294967296\n', "bad value client 2 limit"),
    ('name = "b"\nas = 1\nlisten = "0.0.0.0:1"\npeer = "0.0.0.0"\nlimit = 1\n', "good"),
    ('name = "b"\nas = 1\nlisten = "0.0.0.0:1"\npeer = "0.0.0.0"\nhold = 9\n', "bad value client 2 ?"),
    # of an earlier client
    ('name = "a"\nas = 1\nlisten = "0.0.0.0:1"\npeer = "0.0.0.0"\n', "twice client 2"),
    ('name = "b"\nas = 1\nlisten = "127.0.0.1:17901"\npeer = "192.0.2.11"\n', "twice client 2"),
    ('name = "b"\nas = 64496\nlisten = "127.0.0.1:17902"\npeer = "192.0.2.11"\n', "good"),
    ('name = "b"\nas = 64496\nlisten = "127.0.0.1:17901"\npeer = "192.0.2.12"\n', "good"),
    ('name = "A"\nas = 64496\nlisten = "127.0.0.1:17902"\npeer = "192.0.2.12"\n', "good"),
    # an unknown key before a client that is there twice, and that before any list
    ('name = "a"\nas = 1\nlisten = "0.0.0.0:1"\npeer = "0.0.0.0"\ncolour = 1\n', "bad value client 2 ?"),
    ('name = "a"\nas = 1\nlisten = "0.0.0.0:1"\npeer = "0.0.0.0"\nimport = 1\n', "twice client 2"),
    ('name = "b"\nas = 1\nlisten = "0.0.0.0:1"\npeer = "0.0.0.0"\nimport = 1\n', "bad value client 2 import"),
    ('name = "b"\nas = 1\nlisten = "0.0.0.0:1"\npeer = "0.0.0.0"\nexport = [1]\n', "bad value client 2 export"),
    ('name = "b"\nas = 1\nlisten = "0.0.0.0:1"\npeer = "0.0.0.0"\nexport = []\n', "good"),
)

# The keys of a rule, with the cause and the key of the fault; from `path_longer = "1"` to `path_in`, and at `community = 1` behind
# `first_as_is_peer`, faults come in the order of the keys.
IN_A_RULE = (
    ("", "missing", "action"),
    ('prefix = 1, action = "pass"', "bad value", "prefix"),
    ('prefix = "10.0.0.0", action = "pass"', "bad value", "prefix"),
    ('prefix = "10.0.0.0/33", action = "pass"', "bad value", "prefix"),
    ('prefix = "10.0.0.0/08", action = "pass"', "bad value", "prefix"),
    ('prefix = "10.0.0/8", min = 9, action = "pass"', "bad value", "prefix"),
    ('min = 8, action = "pass"', "bad value", "min"),
    ('max = 8, action = "pass"', "bad value", "max"),
    ('prefix = "10.0.0.0/8", min = 7, action = "pass"', "bad value", "min"),
    ('prefix = "10.0.0.0/8", min = 33, action = "pass"', "bad value", "min"),
    ('prefix = "10.0.0.0/8", min = "9", action = "pass"', "bad value", "min"),
    ('prefix = "10.0.0.0/8", max = 7, action = "pass"', "bad value", "max"),
    ('prefix = "10.0.0.0/8", max = 33, action = "pass"', "bad value", "max"),
    ('prefix = "10.0.0.0/24", min = 25, max = 24', "bad value", "max"),
    ('from = "c", action = "pass"', "bad value", "from"),
    ('from = 1, action = "pass"', "bad value", "from"),
    ('path_has = 0, action = "pass"', "bad value", "path_has"),
    ('path_has = "1", action = "pass"', "bad value", "path_has"),
    ('path_longer = -1, action = "pass"', "bad value", "path_longer"),
    ('path_longer = 4294967296, action = "pass"', "bad value", "path_longer"),
    ('path_longer = "1", path_has = 0', "bad value", "path_has"),
    ("path_longer = true, path_in = 1", "bad value", "path_longer"),
    ('first_as_is_peer = "true", action = "pass"', "bad value", "first_as_is_peer"),
    ("first_as_is_peer = 1, community = 1", "bad value", "first_as_is_peer"),
    ('origin_as = 4294967296, action = "pass"', "bad value", "origin_as"),
    ('community = "65536:1", action = "pass"', "bad value", "community"),
    ('community = "1:01", action = "pass"', "bad value", "community"),
    ('community = "1", action = "pass"', "bad value", "community"),
    ('community = 1, action = "pass"', "bad value", "community"),
    ('next_hop_is_peer = 1, action = "pass"', "bad value", "next_hop_is_peer"),
    ('action = "accept"', "bad value", "action"),
    ("action = true", "bad value", "action"),
    ('action = "drop", preference = 5', "bad value", "preference"),
    ('action = "pass", preference = -1', "bad value", "preference"),
    ('action = "pass", preference = 4294967296', "bad value", "preference"),
    ("preference = 5", "missing", "action"),
    ('action = "drop", strip = []', "bad value", "strip"),
    ('action = "drop", strip = "all"', "bad value", "strip"),
    ('action = "pass", strip = "none"', "bad value", "strip"),
    ('action = "pass", strip = [1]', "bad value", "strip"),
    ('action = "pass", strip = ["1:1", "1:"]', "bad value", "strip"),
    ('action = "pass", colour = 1', "bad value", "?"),
    ('action = "pass", preference = "5", colour = 1', "bad value", "preference"),
)

# The same of patterns of communities.
OF_PATTERNS = (
    ('community = "*:0", action = "pass"', "bad value", "community"),
    ('community = "*:*", action = "pass"', "bad value", "community"),
    ('community = "64500:**", action = "pass"', "bad value", "community"),
    ('community = "0:Peer", action = "pass"', "bad value", "community"),
    ('community = "0:peer:0", action = "pass"', "bad value", "community"),
    ('large_community = 1, action = "pass"', "bad value", "large_community"),
    ('large_community = "64500:0", action = "pass"', "bad value", "large_community"),
    ('large_community = "64500:0:0:0", action = "pass"', "bad value", "large_community"),
    ('large_community = "64500:0:4294967296", action = "pass"', "bad value", "large_community"),
    ('large_community = "64500:00:1", action = "pass"', "bad value", "large_community"),
    ('large_community = "*:0:0", action = "pass"', "bad value", "large_community"),
    ('large_community = "*:*:*", action = "pass"', "bad value", "large_community"),
    ('large_community = "64500:*:0", action = "pass"', "bad value", "large_community"),
    ('large_community = "64500:*:peer", action = "pass"', "bad value", "large_community"),
    ('large_community = "64500::0", action = "pass"', "bad value", "large_community"),
    ('large_community = 1, community = 1, action = "pass"', "bad value", "community"),
    ('large_community = 1, next_hop_is_peer = 1, action = "pass"', "bad value", "large_community"),
    ('action = "pass", strip = ["*:0"]', "bad value", "strip"),
    ('action = "pass", strip = ["0:peer"]', "bad value", "strip"),
    ('action = "pass", strip = ["64500:0:0"]', "bad value", "strip"),
    ('action = "drop", strip_large = []', "bad value", "strip_large"),
    ('action = "drop", strip_large = "all"', "bad value", "strip_large"),
    ('action = "pass", strip_large = "none"', "bad value", "strip_large"),
    ('action = "pass", strip_large = [1]', "bad value", "strip_large"),
    ('action = "pass", strip_large = ["64500:1"]', "bad value", "strip_large"),
    ('action = "pass", strip_large = ["64500:0:*", "*:0:0"]', "bad value", "strip_large"),
    ('action = "pass", strip_large = ["64500:0:peer"]', "bad value", "strip_large"),
    ('action = "pass", strip_large = 1, strip = 1', "bad value", "strip"),
    ('action = "pass", strip_large = 1, colour = 1', "bad value", "strip_large"),
)

# At the top, before a client: lists.
OF_LISTS = (
    ("list = 1\n", "bad value list"),
    ("list = [1]\n", "bad value list"),
    ("list = []\n", "good"),
    ("[[list]]\n", "missing list 1 name"),
    ('[[list]]\nname = "a b"\n', "bad value list 1 name"),
    ('[[list]]\nname = "l"\n', "missing list 1 prefixes"),
    ('[[list]]\nname = "l"\nprefixes = []\n', "good"),
    ('[[list]]\nname = "l"\nases = []\n', "good"),
    ('[[list]]\nname = "l"\nases = []\nprefixes = []\n', "good"),
    ('[[list]]\nname = "l"\nprefixes = "10.0.0.0/8"\n', "bad value list 1 prefixes"),
    ('[[list]]\nname = "l"\nprefixes = [1]\n', "bad value list 1 prefixes 1"),
    ('[[list]]\nname = "l"\nprefixes = ["10.0.0.0/8", "10.0.0.0"]\n', "bad value list 1 prefixes 2"),
    ('[[list]]\nname = "l"\nprefixes = ["10.0.0.0/33"]\n', "bad value list 1 prefixes 1"),
    ('[[list]]\nname = "l"\nprefixes = ["10.0.0.0/8^7"]\n', "bad value list 1 prefixes 1"),
    ('[[list]]\nname = "l"\nprefixes = ["10.0.0.0/8^33"]\n', "bad value list 1 prefixes 1"),
    ('[[list]]\nname = "l"\nprefixes = ["10.0.0.0/8^24-16"]\n', "bad value list 1 prefixes 1"),
    ('[[list]]\nname = "l"\nprefixes = ["10.0.0.0/8^7-16"]\n', "bad value list 1 prefixes 1"),
    ('[[list]]\nname = "l"\nprefixes = ["10.0.0.0/8^16-33"]\n', "bad value list 1 prefixes 1"),
    ('[[list]]\nname = "l"\nprefixes = ["10.0.0.0/8^"]\n', "bad value list 1 prefixes 1"),
    ('[[list]]\nname = "l"\nprefixes = ["10.0.0.0/8^*"]\n', "bad value list 1 prefixes 1"),
    ('[[list]]\nname = "l"\nprefixes = ["10.0.0.0/8^+^+"]\n', "bad value list 1 prefixes 1"),
    ('[[list]]\nname = "l"\nprefixes = ["10.0.0.1/32^-"]\n', "bad value list 1 prefixes 1"),
    ('[[list]]\nname = "l"\nases = [-1]\n', "bad value list 1 ases 1"),
    ('[[list]]\nname = "l"\nases = [0, 4294967296]\n', "bad value list 1 ases 2"),
    ('[[list]]\nname = "l"\nases = ["64496"]\n', "bad value list 1 ases 1"),
    ('[[list]]\nname = "l"\nases = ["64497-64496"]\n', "bad value list 1 ases 1"),
    ('[[list]]\nname = "l"\nases = ["0-4294967296"]\n', "bad value list 1 ases 1"),
    ('[[list]]\nname = "l"\nases = ["064496-64499"]\n', "bad value list 1 ases 1"),
    ('[[list]]\nname = "l"\nases = ["64496 - 64499"]\n', "bad value list 1 ases 1"),
    ('[[list]]\nname = "l"\nases = []\ncolour = 1\n', "bad value list 1 ?"),
    ('[[list]]\nname = "l"\nases = []\n[[list]]\nname = "l"\nprefixes = []\n', "twice list 2"),
    ('[[list]]\nname = "l"\nases = []\n[[list]]\nname = "m"\nprefixes = ["::/0"]\n', "bad value list 2 prefixes 1"),
    # an entry before what is unknown, the prefixes before the AS numbers
    ('[[list]]\nname = "l"\nases = [-1]\nprefixes = [1]\ncolour = 1\n', "bad value list 1 prefixes 1"),
    # an unknown key at the top before the lists' keys, the array of lists before it
    ("colour = 1\n[[list]]\n", "bad value ?"),
    ("colour = 1\nlist = 1\n", "bad value list"),
    ("colour = 1\n", "bad value ?"),
)

# Rules beside a list `p` of prefixes and a list `n` of AS numbers; from `origin_as = 0, path_in` on faults come in the order of the keys.
BESIDE_LISTS = (
    ('prefix_in = "p", action = "drop"', "good"),
    ('origin_in = "n", action = "drop"', "good"),
    ('prefix_in = 1, action = "drop"', "bad value client 1 import 1 prefix_in"),
    ('prefix_in = "q", action = "drop"', "bad value client 1 import 1 prefix_in"),
    ('prefix_in = "n", action = "drop"', "bad value client 1 import 1 prefix_in"),
    ('origin_in = "p", action = "drop"', "bad value client 1 import 1 origin_in"),
    ('path_in = "n", action = "drop"', "good"),
    ('path_in = 64496, action = "drop"', "bad value client 1 import 1 path_in"),
    ('path_in = "p", action = "drop"', "bad value client 1 import 1 path_in"),
    ('path_in = "q", action = "drop"', "bad value client 1 import 1 path_in"),
    ('origin_as = 0, path_in = "q"', "bad value client 1 import 1 path_in"),
    ('first_as_is_peer = 1, origin_in = "q"', "bad value client 1 import 1 origin_in"),
    ('max = 1, prefix_in = "q"', "bad value client 1 import 1 max"),
    ('from = "z", prefix_in = "q"', "bad value client 1 import 1 prefix_in"),
    ('origin_as = 0, origin_in = "q"', "bad value client 1 import 1 origin_as"),
)

# At the top, before a client: rules that others use.
OF_RULES = (
    ("rules = 1\n", "bad value rules"),
    ("rules = [1]\n", "bad value rules"),
    ("rules = []\n", "good"),
    ("[[rules]]\n", "missing rules 1 name"),
    ('[[rules]]\nname = "a b"\n', "bad value rules 1 name"),
    ('[[rules]]\nname = "r"\n', "missing rules 1 rules"),
    ('[[rules]]\nname = "r"\nrules = []\n', "good"),
    ('[[rules]]\nname = "r"\nrules = "r"\n', "bad value rules 1 rules"),
    ('[[rules]]\nname = "r"\nrules = [1]\n', "bad value rules 1 rules"),
    ('[[rules]]\nname = "r"\nrules = []\ncolour = 1\n', "bad value rules 1 ?"),
    ('[[rules]]\nname = "r"\nrules = [{ action = "drop" }, { action = "fall" }]\n', "bad value rules 1 rules 2 action"),
    ('[[rules]]\nname = "r"\nrules = [{ action = "pass", strip = [1] }]\n', "bad value rules 1 rules 1 strip"),
    ('[[rules]]\nname = "r"\nrules = [{ prefix_in = "l", action = "drop" }]\n', "bad value rules 1 rules 1 prefix_in"),
    ('[[rules]]\nname = "r"\nrules = [{ from = "z", action = "drop" }]\n', "bad value rules 1 rules 1 from"),
    # rules use no others
    ('[[rules]]\nname = "r"\nrules = []\n[[rules]]\nname = "s"\nrules = [{ use = "r", action = "drop" }]\n', "bad value rules 2 rules 1 ?"),
    # the name of earlier ones, behind what is unknown and before the rules
    ('[[rules]]\nname = "r"\nrules = []\n[[rules]]\nname = "r"\nrules = [{}]\n', "twice rules 2"),
    ('[[rules]]\nname = "r"\nrules = []\n[[rules]]\nname = "r"\nrules = []\ncolour = 1\n', "bad value rules 2 ?"),
    # the arrays at the top in their order, an unknown key behind them
    ("rules = 1\nlist = 1\n", "bad value list"),
    ("rules = 1\ncolour = 1\n", "bad value rules"),
    # lists before rules
    ("[[rules]]\n[[list]]\n", "missing list 1 name"),
)

# Tables in a client's list beside rules `r`.
USES = (
    ('use = "r"', "good"),
    ('use = "s"', "bad value client 1 import 1 use"),
    ("use = 1", "bad value client 1 import 1 use"),
    ('use = ["r"]', "bad value client 1 import 1 use"),
    ('use = "r", action = "drop"', "bad value client 1 import 1 ?"),
    ("use = 1, colour = 1", "bad value client 1 import 1 use"),
)

# Rules with the AS number of the receiver, each with the key that has a fault in an import list.
WITH_PEER = (
    ('community = "0:peer", action = "drop"', "community"),
    ('community = "peer:0", action = "drop"', "community"),
    ('community = "peer:*", action = "drop"', "community"),
    ('community = "peer:peer", action = "drop"', "community"),
    ('large_community = "peer:0:0", action = "drop"', "large_community"),
    ('large_community = "64500:peer:*", action = "drop"', "large_community"),
    ('large_community = "64500:0:peer", action = "drop"', "large_community"),
    ('large_community = "peer:*:*", action = "drop"', "large_community"),
)

# At the top and in the two clients of another configuration.
TOPS = (
    ('hold = 90\nextended = false\ndefault = "drop"\n', "limit = 5\n", 'import = [{ action = "drop" }]\n', "good"),
    ("multiprotocol = true\nhold = 30\nrefresh = true\n", "", "", "fixed hold"),
    ("multiprotocol = true\nrefresh = true\n", "", "", "fixed refresh"),
    ("multiprotocol = true\n", "", "", "fixed multiprotocol"),
    ("extended = true\nrefresh = true\n", "", "", "fixed extended"),
    ("", "", '[[client]]\nname = "c"\nas = 1\nlisten = "0.0.0.0:1"\npeer = "0.0.0.0"\n', "fixed client"),
    ("", "colour = 1\n", "", "bad value client 1 ?"),
)

# The second client of another configuration.
SECONDS = (
    ('name = "c"\nas = 1\nlisten = "0.0.0.0:1"\npeer = "0.0.0.0"\n', "fixed client 2 name"),
    ('name = "b"\nas = 64999\nlisten = "0.0.0.0:1"\npeer = "0.0.0.0"\n', "fixed client 2 as"),
    ('name = "b"\nas = 64497\nlisten = "127.0.0.1:1"\npeer = "0.0.0.0"\n', "fixed client 2 listen"),
    ('name = "b"\nas = 64497\nlisten = "127.0.0.2:17902"\npeer = "0.0.0.0"\n', "fixed client 2 listen"),
    ('name = "b"\nas = 64497\nlisten = "127.0.0.1:17902"\npeer = "0.0.0.0"\n', "fixed client 2 peer"),
)


# Rules `r`, of which a row's is the second one, and rules `s`.
SHARED_FRONT, SHARED_REST = '[[rules]]\nname = "r"\nrules = [{ action = "drop" }, { ', ' }]\n[[rules]]\nname = "s"\nrules = []\n'
LISTS = '[[list]]\nname = "p"\nprefixes = ["10.0.0.0/8"]\n[[list]]\nname = "n"\nases = [64496]\n'
SHARED = '[[rules]]\nname = "r"\nrules = [{ action = "drop" }]\n'
EMPTY_RULE = f"{CLIENT}import = [{{}}]\n"


def single():
    """Texts with their faults that are no rows of the tables, or stand between others."""
    # A fault of a client before an unknown key at the top is told after it.
    yield f"{TOP}colour = 1\n[[client]]\n", "bad value ?"
    # A list's fault comes after the clients' and before the rules'; so does a fault of rules that others use.
    for table in ("list", "rules"):
        yield f"{TOP}[[{table}]]\n{EMPTY_RULE}[[client]]\n", "missing client 2 name"
        yield f"{TOP}[[{table}]]\n{EMPTY_RULE}", f"missing {table} 1 name"


def long():
    """Arrays that are too long, with their faults."""
    ones = "1, " * 65
    yield f"{TOP}client = [{'1, ' * 513}]\n", "too many client"
    for table in ("import", "export"):
        yield f"{TOP}{CLIENT}{table} = [{ones}]\n", f"too many client 1 {table}"
        for key in ("strip", "strip_large"):
            yield f'{TOP}{CLIENT}{table} = [{{ action = "drop", {key} = [{ones}] }}]\n', f"too many client 1 {table} 1 {key}"


def with_peer(rule, key):
    """Such a rule is good in an export list and in rules that others use there, and has a fault in an import list; such a list doesn't find the rules."""
    yield f"{TOP}{CLIENT}export = [{{ {rule} }}]\n", "good"
    yield f"{TOP}{CLIENT}import = [{{ {rule} }}]\n", f"bad value client 1 import 1 {key}"
    shared, uses = f"{SHARED_FRONT}{rule}{SHARED_REST}", '[{ use = "s" }, { use = "r" }]'
    yield f"{TOP}{shared}{CLIENT}export = {uses}\n", "good"
    yield f"{TOP}{shared}{CLIENT}import = {uses}\n", "bad value client 1 import 2 use"


def texts():
    """All texts with their faults."""
    for front, table, behind in (
        ("", AT_THE_TOP, ""),
        (TOP, BEHIND_TOP, ""),
        (TOP + CLIENT, BEHIND_CLIENT, ""),
        (f"{TOP}{CLIENT}[[client]]\n", IN_A_CLIENT, ""),
        (TOP, OF_LISTS, CLIENT),
        (f"{TOP}{LISTS}{CLIENT}import = [{{ ", BESIDE_LISTS, " }]\n"),
        (TOP, OF_RULES, CLIENT),
        (f"{TOP}{SHARED}{CLIENT}import = [{{ ", USES, " }]\n"),
    ):
        yield from ((front + part + behind, fault) for part, fault in table)
    # A rule after a good one, in either list, before the fault of a later client.
    for rule, cause, key in IN_A_RULE + OF_PATTERNS:
        for table in ("import", "export"):
            text = f'{TOP}{CLIENT}{table} = [{{ action = "drop" }}, {{ {rule} }}]\n{OTHER}import = 1\n'
            yield text, f"{cause} client 1 {table} 2 {key}"
    for row in WITH_PEER:
        yield from with_peer(*row)
    yield from single()
    yield from long()


def others():
    """Octets in place of the configuration of both clients, with what is answered."""
    for top, first, second, answer in TOPS:
        yield (TOP + top + CLIENT + first + OTHER + second).encode(), answer
    for second, answer in SECONDS:
        yield f"{TOP}{CLIENT}[[client]]\n{second}".encode(), answer
    yield b"as = \xff", "unreadable"
    yield b"as = 1\n", "missing identifier"


def played(program, path, octets=b""):
    """The status of a trace by the configuration at a path, and what was printed."""
    run = subprocess.run([program, "--config", path], input=octets, capture_output=True, timeout=60)
    return run.returncode, run.stdout.decode(), run.stderr.decode()


def fault_differs(program, path, text, fault):
    """What is wrong with what is told of a text, or None."""
    path.write_text(text)
    found, wanted = played(program, path), (0, "", "") if fault == "good" else (2, "", f"configuration: {fault}\n")
    return None if found == wanted else f"{found} and not {wanted}"


def answer_differs(program, path, octets, answer):
    """What is wrong with what is answered to octets that are to replace a configuration, or None."""
    found = played(program, path, b"rules " + octets.hex().encode() + b"\n")
    wanted = 0, "rules accepted\n" if answer == "good" else f"rules refused: {answer}\n", ""
    return None if found == wanted else f"{found} and not {wanted}"


def shown(text):
    """A text in one line, its end where it is long."""
    line = " ".join(text.split("\n"))
    return line if len(line) < 120 else f"..{line[-118:]}"


def play_faults(program):
    """Tries all: what was tried, and what is wrong or None."""
    with tempfile.TemporaryDirectory() as folder:
        path = pathlib.Path(folder, "given.toml")
        for text, fault in texts():
            yield f"configuration, {fault}: {shown(text)}", fault_differs(program, path, text, fault)
        path.write_text(TOP + CLIENT + OTHER)
        for octets, answer in others():
            yield f"configuration replaced, {answer}: {octets[len(TOP):]}", answer_differs(program, path, octets, answer)


def by_words(words):
    """The results, by the words of a command behind the play's name; None where these are others."""
    if len(words) == 1:
        return play_faults(pathlib.Path(words[0]).resolve())
    return None
