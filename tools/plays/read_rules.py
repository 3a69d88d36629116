"""What rules make of a route: a reading of "A rule" of docs/OPERATING.md in plain Python, for `rules`.

It stands on that page's words and on the standards behind them, and shares nothing with the server, its definitions or the plain
function (`plain`): AS_PATH and its length (RFC 4271, 4.3 and 9.1.2.2), COMMUNITIES (RFC 1997), LARGE_COMMUNITY (RFC 8092, 3),
range operators (RFC 2622, 2), what a route server leaves as it is (RFC 7947, 2.2), and routes that are treated as withdrawn
(RFC 7606, 3 and 7).

A configuration is what tomllib reads; a route is a prefix (its bits, its length) and its attributes, by type their flags and octets.
"""
import collections
import ipaddress
import struct

ORIGIN, AS_PATH, NEXT_HOP, COMMUNITIES, LARGE_COMMUNITY = 1, 2, 3, 8, 32
# Types that a router of these standards recognizes: the Partial bit of any other is set where it is passed on (RFC 4271, 5).
RECOGNIZED = {1, 2, 3, 4, 5, 6, 7, 8, 32}
PARTIAL, EXTENDED_LENGTH = 0x20, 0x10
AS_SET, AS_SEQUENCE = 1, 2
# The keys of a rule that are no tests, and those that belong to `prefix`.
NO_TESTS = {"action", "preference", "strip", "strip_large", "min", "max"}

# Who sent the route, and to whom it goes: tables of the configuration; the second is None in an import list.
Way = collections.namedtuple("Way", "config sender receiver")


def read_attributes(octets):
    """The attributes of an UPDATE by type: flags without the one for the form of the length, and value (RFC 4271, 4.3)."""
    found, at = {}, 0
    while at < len(octets):
        flags, kind = octets[at], octets[at + 1]
        if flags & EXTENDED_LENGTH:
            (size,), at = struct.unpack_from(">H", octets, at + 2), at + 4
        else:
            size, at = octets[at + 2], at + 3
        found[kind] = flags & ~EXTENDED_LENGTH, octets[at : at + size]
        at += size
    return found


def read_prefixes(octets):
    """Prefixes of an UPDATE, each as its bits and its length."""
    found, at = [], 0
    while at < len(octets):
        length, size = octets[at], (octets[at] + 7) // 8
        bits = int.from_bytes(octets[at + 1 : at + 1 + size].ljust(4, b"\0"))
        found.append((bits, length))
        at += 1 + size
    return found


def numbers(octets, size):
    """Numbers of so many octets each."""
    return [int.from_bytes(octets[at : at + size]) for at in range(0, len(octets), size)]


def value(attributes, kind):
    return attributes[kind][1] if kind in attributes else b""


def segments(attributes):
    """The segments of AS_PATH, in which AS numbers have four octets: type and numbers of each."""
    octets, at, found = value(attributes, AS_PATH), 0, []
    while at < len(octets):
        kind, count = octets[at], octets[at + 1]
        found.append((kind, numbers(octets[at + 2 : at + 2 + 4 * count], 4)))
        at += 2 + 4 * count
    return found


def communities(attributes):
    """COMMUNITIES, each as its two parts."""
    halves = numbers(value(attributes, COMMUNITIES), 2)
    return list(zip(halves[::2], halves[1::2]))


def large_communities(attributes):
    """LARGE_COMMUNITY, each as its three parts."""
    words = numbers(value(attributes, LARGE_COMMUNITY), 4)
    return list(zip(words[::3], words[1::3], words[2::3]))


def origin_as(attributes):
    """The AS number with which AS_PATH ends, not in a set; or None."""
    path = segments(attributes)
    return path[-1][1][-1] if path and path[-1][0] == AS_SEQUENCE else None


def lies_within(prefix, network, least, most):
    """The prefix lies within the network, its length from the one to the other."""
    bits, length = prefix
    mine = ipaddress.ip_network((bits, length))
    return mine.subnet_of(network) and least <= length <= most


def is_entry(prefix, entry):
    """The prefix is one of an entry's of a list: RFC 2622, 2."""
    text, operator, words = entry.partition("^")
    network = ipaddress.ip_network(text, strict=False)
    own = network.prefixlen
    if not operator:
        bounds = own, own
    elif words == "-":
        bounds = own + 1, 32
    elif words == "+":
        bounds = own, 32
    else:
        ends = [int(it) for it in words.split("-")]
        bounds = ends[0], ends[-1]
    return lies_within(prefix, network, *bounds)


def is_number(number, entry):
    """The AS number is one of an entry's of a list."""
    ends = [int(it) for it in str(entry).split("-")]
    return ends[0] <= number <= ends[-1]


def listed(way, name):
    return next(it for it in way.config["list"] if it["name"] == name)


def is_like(pattern, community, receiver):
    """The community is one of a pattern's. `peer` is the AS number of the member to which the route goes, which is no part of
    a community where it has more than two octets, as none is that great there."""
    for part, number in zip(pattern.split(":"), community):
        if part == "peer":
            if number != receiver["as"]:
                return False
        elif part != "*" and number != int(part):
            return False
    return True


def is_prefix_of(rule, prefix):
    """The prefix is one that `prefix`, with `min` and `max`, asks for."""
    network = ipaddress.ip_network(rule["prefix"], strict=False)
    least = rule.get("min", network.prefixlen)
    return lies_within(prefix, network, least, rule.get("max", least))


def holds(key, rule, way, prefix, attributes):
    """A test of a rule holds for a route."""
    wanted, path = rule[key], segments(attributes)
    every = [number for _, segment in path for number in segment]
    if key == "prefix":
        return is_prefix_of(rule, prefix)
    if key == "prefix_in":
        return any(is_entry(prefix, it) for it in listed(way, wanted)["prefixes"])
    if key == "from":
        return way.sender["name"] == wanted
    if key == "path_has":
        return wanted in every
    if key == "path_longer":
        return sum(1 if kind == AS_SET else len(segment) for kind, segment in path) > wanted
    if key == "path_in":
        return any(is_number(number, it) for number in every for it in listed(way, wanted)["ases"])
    if key == "origin_as":
        return origin_as(attributes) == wanted
    if key == "origin_in":
        last = origin_as(attributes)
        return last is not None and any(is_number(last, it) for it in listed(way, wanted)["ases"])
    if key == "first_as_is_peer":
        return (every[:1] == [way.sender["as"]]) == wanted
    if key == "community":
        return any(is_like(wanted, it, way.receiver) for it in communities(attributes))
    if key == "large_community":
        return any(is_like(wanted, it, way.receiver) for it in large_communities(attributes))
    if key == "next_hop_is_peer":
        return (value(attributes, NEXT_HOP) == ipaddress.ip_address(way.sender["peer"]).packed) == wanted
    raise KeyError(key)


def kind_of(key, patterns):
    """A key with what its patterns have beside numbers, as it is counted."""
    parts = {part for it in patterns for part in it.split(":")}
    return key + (" with peer" if "peer" in parts else " with *" if "*" in parts else "")


def matches(rule, way, prefix, attributes, seen):
    """All tests of a rule hold; `seen` is given each test on which that hung, as the others hold, and whether it held."""
    outcomes = {key: holds(key, rule, way, prefix, attributes) for key in rule if key not in NO_TESTS}
    for key, outcome in outcomes.items():
        if all(other for name, other in outcomes.items() if name != key):
            seen.add((kind_of(key, [rule[key]]) if "community" in key else key, outcome))
    return all(outcomes.values())


def deciding(rules, way, prefix, attributes, seen):
    """The first rule of a list that matches, or None."""
    for it in rules:
        if "use" in it:
            used = next(one["rules"] for one in way.config["rules"] if one["name"] == it["use"])
            found = deciding(used, way, prefix, attributes, seen)
            seen.add(("use", found is not None))
        else:
            found = it if matches(it, way, prefix, attributes, seen) else None
        if found:
            return found
    return None


def is_passed(config, rule):
    return (rule["action"] if rule else config.get("default", "pass")) == "pass"


def kept(rules, key, items, seen):
    """The communities that these rules leave."""
    for rule in rules:
        patterns = (rule or {}).get(key, [])
        taken = [it for it in items if patterns == "all" or any(is_like(pattern, it, None) for pattern in patterns)]
        if patterns and patterns != "all" and items:
            seen.add((kind_of(key, patterns), bool(taken)))
        items = [it for it in items if it not in taken]
    return items


def is_withdrawn(attributes):
    """The route is treated as withdrawn: ORIGIN is none of three, or NEXT_HOP is missing (RFC 7606, 7.1 and 3)."""
    return value(attributes, ORIGIN) not in (b"\0", b"\1", b"\2") or NEXT_HOP not in attributes


def passed_on(way, prefix, attributes, seen):
    """The attributes with which the receiver is sent the route, or None where it isn't."""
    config, sender, receiver = way
    if is_withdrawn(attributes) or any(config["as"] in segment for _, segment in segments(attributes)):
        return None
    first = deciding(sender.get("import", []), Way(config, sender, None), prefix, attributes, seen)
    if not is_passed(config, first):
        return None
    second = deciding(receiver.get("export", []), way, prefix, attributes, seen)
    if not is_passed(config, second):
        return None
    sent = {kind: (flags | (0 if kind in RECOGNIZED else PARTIAL), octets) for kind, (flags, octets) in attributes.items()}
    for kind, key, items, code in (
        (COMMUNITIES, "strip", communities(attributes), ">HH"),
        (LARGE_COMMUNITY, "strip_large", large_communities(attributes), ">III"),
    ):
        if kind in sent:
            left = kept((first, second), key, items, seen)
            sent[kind] = sent[kind][0], b"".join(struct.pack(code, *it) for it in left)
            if not left:
                del sent[kind]
    return sent
