#!/usr/bin/env python3
"""Makes the configuration of an exchange from the list of its members and from what they registered.

    exchange.py MEMBERS.json --as NUMBER --identifier ADDRESS --listen ADDRESS:PORT --registered FOLDER [--vlan ID] [--lists FOLDER]

MEMBERS.json is the member list that exchanges publish (the member export of Euro-IX): of each connection with an IPv4
address, and in this VLAN where --vlan is given, `asnum`, `ipv4.address`, `ipv4.as_macro` and `ipv4.max_prefix` are taken.
A connection whose `ipv4.routeserver` is false is left out. Where two of them are of one AS they share its lists.

FOLDER has two files of each macro, or of each AS that has none, as bgpq4 writes them in JSON. NAME is the macro or `AS64496`, and
what stands in it besides letters, digits and hyphens is a hyphen in the name of the file:

    bgpq4 -4 -j -A -l prefixes NAME > FOLDER/NAME.prefixes.json
    bgpq4 -j -t -l ases NAME > FOLDER/NAME.ases.json

The first becomes a list of prefixes, the second one of AS numbers. Where a file is missing its list is empty and is named on
standard error: of such a member no route is heard. The list `bogons` has what no member may announce: reserved prefixes,
those shorter than /8 and longer than /24. A member's import list drops what is among them or whose NEXT_HOP isn't its own, and
passes what is in its lists. Its export list uses the rules `actions`, which read and take away the action communities of
examples/exchange.toml: large ones alone where the server's own AS number has four octets.

The configuration is written to standard output. With --lists the list of each macro is a file of its own there, NAME.toml, by the name
of the list; one that would be the same is left as it is, so that a server which reads all again by --reload reads what changed:

    rs_served --config exchange.toml $(printf -- '--config %s ' LISTS/*.toml) --reload 1

A file that is of no member any more is named on standard error, and stays. The status is 0, or 1 where a file can't be understood, and 2 for a faulty
command line.
"""
import argparse
import ipaddress
import json
import pathlib
import re
import sys

BOGONS = (
    "0.0.0.0/0^0-7", "0.0.0.0/0^25-32", "0.0.0.0/8^+", "10.0.0.0/8^+", "100.64.0.0/10^+", "127.0.0.0/8^+", "169.254.0.0/16^+",
    "172.16.0.0/12^+", "192.0.0.0/24^+", "192.0.2.0/24^+", "192.168.0.0/16^+", "198.18.0.0/15^+", "198.51.100.0/24^+", "203.0.113.0/24^+",
    "224.0.0.0/3^+",
)
MOST_ENTRIES = 1 << 20
NAME_OCTETS = 32


class Fault(Exception):
    """What is wrong with a file."""


def read(path):
    """What a file in JSON has."""
    try:
        return json.loads(path.read_text())
    except (OSError, ValueError) as error:
        raise Fault(f"{path}: {error}") from error


def connections(members, vlan):
    """The AS number and the IPv4 part of each connection, in the order of the file."""
    for member in members["member_list"]:
        for connection in member.get("connection_list") or []:
            for it in connection.get("vlan_list") or []:
                ipv4 = it.get("ipv4") or {}
                asked = ipv4.get("address") and ipv4.get("routeserver") is not False
                if asked and vlan in (None, it.get("vlan_id")):
                    yield int(member["asnum"]), ipv4


def plain(name):
    """A name with hyphens in place of what names can't have."""
    return re.sub(r"[^A-Za-z0-9-]+", "-", name).strip("-")


def only_value(path, document):
    """The one array of a file of bgpq4."""
    values = list(document.values()) if isinstance(document, dict) else []
    if len(values) != 1 or not isinstance(values[0], list):
        raise Fault(f"{path}: not one array")
    return values[0]


def begins(entry):
    """What the order of prefixes goes by: the first address, and the widest first of those that begin together."""
    network = ipaddress.IPv4Network(entry["prefix"], strict=False)
    return int(network.network_address), network.prefixlen


def ranged(entry):
    """A prefix of bgpq4's JSON with its range operator (RFC 2622, 2)."""
    prefix = entry["prefix"]
    own = int(prefix.partition("/")[2])
    least, most = entry.get("greater-equal", own), entry.get("less-equal", own)
    if entry.get("exact", least == most == own):
        return prefix
    return f"{prefix}^{least}" if least == most else f"{prefix}^{least}-{most}"


def entries(folder, name, kind, place, write):
    """The entries of a macro's list, as TOML has them, in the order of the server's search, which then keeps them once; none where
    its file is missing."""
    path = folder / f"{plain(name)}.{kind}.json"
    if not path.exists():
        print(f"{path} is missing: nothing is in {name}'s {kind}", file=sys.stderr)
        return []
    try:
        found = [write(it) for it in sorted(only_value(path, read(path)), key=place)]
    except (KeyError, TypeError, ValueError) as error:
        raise Fault(f"{path}: {error!r}") from error
    if len(found) > MOST_ENTRIES:
        raise Fault(f"{path}: more than {MOST_ENTRIES} entries")
    return found


def array(values):
    """An array of TOML, eight values a line."""
    rows = [", ".join(values[it:it + 8]) for it in range(0, len(values), 8)]
    return "[\n" + "".join(f"    {row},\n" for row in rows) + "]"


def text(value):
    """A text of TOML; the values that come here need no escapes."""
    if re.search(r'["\\\x00-\x1f\x7f]', value):
        raise Fault(f"not to be written: {value!r}")
    return f'"{value}"'


class Names:
    """Names of up to 32 octets, of which no two are alike."""

    def __init__(self):
        self.given = set()

    def of(self, wanted):
        name, count = plain(wanted)[:NAME_OCTETS], 1
        while not name or name in self.given:
            count += 1
            name = f"{plain(wanted)[:NAME_OCTETS - len(str(count)) - 1]}-{count}"
        self.given.add(name)
        return name


def named_list(name, prefixes, ases):
    parts = ["[[list]]", f"name = {text(name)}"]
    if prefixes is not None:
        parts.append(f"prefixes = {array([text(it) for it in prefixes])}")
    if ases is not None:
        parts.append(f"ases = {array([str(it) for it in ases])}")
    return "\n".join(parts) + "\n"


def actions(number):
    """The rules by which members say to whom their routes go."""
    is_short = number < 1 << 16
    strip = f'strip = ["0:*", "{number}:*"], ' if is_short else ""
    passes = f'action = "pass", {strip}strip_large = ["{number}:*:*"]'
    rows = []
    for short, large, action in (
        (f"{number}:peer", f"{number}:1:peer", passes),
        ("0:peer", f"{number}:0:peer", 'action = "drop"'),
        (f"0:{number}", f"{number}:0:0", 'action = "drop"'),
    ):
        rows += [f'community = "{short}", {action}'] if is_short else []
        rows.append(f'large_community = "{large}", {action}')
    rows.append(passes)
    return "\n".join(["[[rules]]", 'name = "actions"', "rules = [", *(f"    {{ {row} }}," for row in rows), "]"]) + "\n"


def client(name, number, ipv4, listen, registered):
    limit = ipv4.get("max_prefix")
    limits = [f"limit = {int(limit)}"] if limit else []
    return "\n".join([
        "[[client]]", f"name = {text(name)}", f"as = {number}", f"listen = {text(listen)}", f"peer = {text(ipv4['address'])}", *limits,
        "import = [",
        '    { prefix_in = "bogons", action = "drop" },',
        "    { next_hop_is_peer = false, action = \"drop\" },",
        f"    {{ prefix_in = {text(registered)}, origin_in = {text(registered)}, action = \"pass\" }},",
        '    { action = "drop" },',
        "]",
        'export = [{ use = "actions" }]',
    ]) + "\n"


def put(folder, name, part):
    """Writes a part to a file of this name, in one step, unless it stands there."""
    path, beside = folder / f"{name}.toml", folder / f".{name}.new"
    try:
        if path.exists() and path.read_text() == part:
            return
        beside.write_text(part)
        beside.rename(path)
    except (OSError, ValueError) as error:
        raise Fault(f"{path}: {error}") from error


def tell_others(folder, names):
    """Names the files of a folder that are of none of these lists."""
    for path in sorted(folder.glob("*.toml")):
        if path.stem not in names:
            print(f"{path} is of no member", file=sys.stderr)


def configuration(arguments):
    """The parts of the configuration: the top, the lists, the rules, the clients; lists that have a folder go there."""
    yield (f"as = {arguments.as_number}\nidentifier = {text(arguments.identifier)}\ndefault = \"pass\"\n"
           "extended = true\nrefresh = true\nmultiprotocol = true\n")
    yield named_list("bogons", BOGONS, None)
    names, lists, clients = Names(), {}, Names()
    names.of("bogons")
    found = list(connections(read(arguments.members), arguments.vlan))
    for number, ipv4 in found:
        macro = ipv4.get("as_macro") or f"AS{number}"
        if macro not in lists:
            lists[macro] = names.of(macro)
            prefixes = entries(arguments.registered, macro, "prefixes", begins, ranged)
            part = named_list(lists[macro], prefixes, entries(arguments.registered, macro, "ases", int, int))
            if arguments.lists:
                put(arguments.lists, lists[macro], part)
            else:
                yield part
    if arguments.lists:
        tell_others(arguments.lists, lists.values())
    yield actions(arguments.as_number)
    for number, ipv4 in found:
        macro = ipv4.get("as_macro") or f"AS{number}"
        yield client(clients.of(f"AS{number}"), number, ipv4, arguments.listen, lists[macro])


def main():
    parser = argparse.ArgumentParser(description=__doc__.partition("\n")[0])
    parser.add_argument("members", type=pathlib.Path)
    parser.add_argument("--as", dest="as_number", type=int, required=True)
    parser.add_argument("--identifier", required=True)
    parser.add_argument("--listen", required=True)
    parser.add_argument("--registered", type=pathlib.Path, required=True)
    parser.add_argument("--vlan", type=int)
    parser.add_argument("--lists", type=pathlib.Path)
    arguments = parser.parse_args()
    try:
        parts = list(configuration(arguments))
    except (Fault, KeyError, TypeError, ValueError) as fault:
        print(f"exchange.py: {fault}", file=sys.stderr)
        return 1
    print("\n".join(parts), end="")
    return 0


if __name__ == "__main__":
    sys.exit(main())
