"""Rules: the first of a list that matches decides (docs/DEFINITIONS.md, "The configuration and its rules"; RFC 7947, 2.3; what
each key asks for: docs/OPERATING.md, "A rule")."""
import collections
import functools
import ipaddress

from . import paths
from .attributes import NEXT_HOP, path, value
from .communities import ASKED, has_like
from .octets import number, prefix_of

# A route on its way: the configuration, the client that announced it, the AS number that `peer` is (None where nobody is
# asked for), its prefix and its attributes.
Way = collections.namedtuple("Way", "config sender receiver prefix attributes")

# Keys of a rule that ask nothing of a route by themselves.
NO_TESTS = {"action", "preference", "strip", "strip_large", "min", "max"}


@functools.lru_cache(4096)
def network(text):
    """The prefix that a text spells."""
    address, _, length = text.partition("/")
    return prefix_of(int(ipaddress.IPv4Address(address)), int(length))


def is_within(prefix, whole, least, most):
    """The prefix lies within the other one, and its length from the one to the other."""
    bits, length = prefix
    return whole[1] <= length and prefix_of(bits, whole[1]) == whole and least <= length <= most


@functools.lru_cache(4096)
def entry(text):
    """The prefix of a list's entry, and from which length to which it takes those within (RFC 2622, 2)."""
    spelt, _, operator = text.partition("^")
    whole = network(spelt)
    least, _, most = {"": f"{whole[1]}", "-": f"{whole[1] + 1}-32", "+": f"{whole[1]}-32"}.get(operator, operator).partition("-")
    return whole, int(least), int(most or least)


def is_number(number, entry):
    """The AS number is one of a list's entry: a number, or a text with two, from one to the other."""
    first, _, last = str(entry).partition("-")
    return int(first) <= number <= int(last or first)


def listed(way, name, key):
    """The entries of the list of this name."""
    return next(it for it in way.config["list"] if it["name"] == name)[key]


def first_as(way):
    """The first number of the path's first segment, be it a set (RFC 4271, 6.3)."""
    return next(iter(paths.numbers(path(way.attributes))), None)


def is_in_range(rule, way):
    whole = network(rule["prefix"])
    least = rule.get("min", whole[1])
    return is_within(way.prefix, whole, least, rule.get("max", least))


def has_path_in(rule, way):
    entries = listed(way, rule["path_in"], "ases")
    return any(is_number(number, it) for number in paths.numbers(path(way.attributes)) for it in entries)


def has_origin_in(rule, way):
    origin = paths.origin_as(path(way.attributes))
    return origin is not None and any(is_number(origin, it) for it in listed(way, rule["origin_in"], "ases"))


def has_community(key):
    return lambda rule, way: has_like(way.attributes, ASKED[key], rule[key], way.receiver)


def is_next_hop_peer(rule, way):
    is_peer = number(value(way.attributes, NEXT_HOP)) == int(ipaddress.IPv4Address(way.sender["peer"]))
    return is_peer == rule["next_hop_is_peer"]


# What each key of a rule asks of a route.
TESTS = {
    "prefix": is_in_range,
    "prefix_in": lambda rule, way: any(is_within(way.prefix, *entry(it)) for it in listed(way, rule["prefix_in"], "prefixes")),
    "from": lambda rule, way: way.sender["name"] == rule["from"],
    "path_has": lambda rule, way: rule["path_has"] in paths.numbers(path(way.attributes)),
    "path_longer": lambda rule, way: paths.length(path(way.attributes)) > rule["path_longer"],
    "path_in": has_path_in,
    "origin_as": lambda rule, way: paths.origin_as(path(way.attributes)) == rule["origin_as"],
    "origin_in": has_origin_in,
    "first_as_is_peer": lambda rule, way: (first_as(way) == way.sender["as"]) == rule["first_as_is_peer"],
    "next_hop_is_peer": is_next_hop_peer,
    "community": has_community("community"),
    "large_community": has_community("large_community"),
}


def written_out(config, rules):
    """The rules of a list, those that it uses in their place."""
    for it in rules:
        if "use" in it:
            yield from next(one["rules"] for one in config["rules"] if one["name"] == it["use"])
        else:
            yield it


def first_match(rules, way):
    """The first rule of a list of which all that it asks of a route holds, or None."""
    for rule in written_out(way.config, rules):
        if all(TESTS[key](rule, way) for key in rule if key not in NO_TESTS):
            return rule
    return None


def passes(config, rule):
    """The rule passes routes, or the default does where none matched."""
    return (rule["action"] if rule else config.get("default", "pass")) == "pass"


def preference(first, second):
    """The export rule's, else the import rule's, else 100."""
    given = [rule["preference"] for rule in (second, first) if rule and "preference" in rule]
    return given[0] if given else 100
