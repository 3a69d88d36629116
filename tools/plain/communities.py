"""Patterns of communities (docs/DEFINITIONS.md, "The configuration and its rules"; RFC 1997; RFC 8092, 3)."""
import struct

from .attributes import COMMUNITIES, LARGE_COMMUNITY, value

# How an item of each type is spelt, and the keys of a rule that ask for one and take some away.
CODES = {COMMUNITIES: struct.Struct(">HH"), LARGE_COMMUNITY: struct.Struct(">III")}
ASKED = {"community": COMMUNITIES, "large_community": LARGE_COMMUNITY}
TAKEN = {COMMUNITIES: "strip", LARGE_COMMUNITY: "strip_large"}


def items(octets, kind):
    """The communities in the octets of an attribute of this type, each as its numbers."""
    return list(CODES[kind].iter_unpack(octets))


def is_part(part, number, receiver):
    """A part of a pattern is this number; `peer` is the receiver's AS number, or none."""
    if part == "peer":
        return number == receiver
    return part == "*" or number == int(part)


def is_like(pattern, item, receiver):
    """Each part that a pattern gives is the same."""
    return all(is_part(part, number, receiver) for part, number in zip(pattern.split(":"), item, strict=True))


def has_like(attributes, kind, pattern, receiver):
    """Some community of this type is like the pattern."""
    return any(is_like(pattern, item, receiver) for item in items(value(attributes, kind), kind))


def is_taken(item, kind, rule):
    """The rule, if any, takes this community of the type away."""
    patterns = rule.get(TAKEN[kind], []) if rule else []
    return patterns == "all" or any(is_like(pattern, item, None) for pattern in patterns)


def left(octets, kind, rules):
    """The octets of what these rules leave of communities, each of which may be None."""
    kept = [item for item in items(octets, kind) if not any(is_taken(item, kind, rule) for rule in rules)]
    return b"".join(CODES[kind].pack(*item) for item in kept)
