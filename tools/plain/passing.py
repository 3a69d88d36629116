"""How a route is passed on, and whether an UPDATE holds it (docs/DEFINITIONS.md, "Path attributes" and "What is due to a client";
RFC 7947, 2.2; RFC 4271, 4.3; RFC 6793, 4.2.2)."""
from .attributes import AGGREGATOR, AS_PATH
from .communities import CODES, left
from .octets import HEADER, spelt_size
from .paths import segments, spelt


def passed_on(candidate, without=None):
    """The attributes with which a route is passed on: those that were announced, without the communities that the rules take away."""
    if without == "stripped":
        return candidate.attributes
    kept = {
        kind: (flags, left(octets, kind, candidate.rules) if kind in CODES else octets)
        for kind, (flags, octets) in candidate.attributes.items()
    }
    return {kind: it for kind, it in kept.items() if it[1] or kind not in CODES}


def spelt_attribute(size):
    """The octets of an attribute whose value has so many: flags, type, one octet of length up to 255, else two."""
    return size + (4 if size > 255 else 3)


def path_in_two(octets):
    """The octets of AS_PATH for a two-octet peer, and of AS4_PATH where some number doesn't go into two."""
    path = segments(octets, 4)
    short = sum(2 + 2 * len(numbers) for _, numbers in path)
    has_long = any(number > 65_535 for _, numbers in path for number in numbers)
    return spelt_attribute(short) + (spelt_attribute(len(spelt(path, 4))) if has_long else 0)


def attribute_size(kind, octets, size):
    """The octets of an attribute as a peer spells it whose AS numbers have so many."""
    if size == 2 and kind == AS_PATH:
        return path_in_two(octets)
    if size == 2 and kind == AGGREGATOR:
        return spelt_attribute(6) + (spelt_attribute(8) if octets[:2] != b"\0\0" else 0)
    return spelt_attribute(len(octets))


def fits(candidate, session):
    """The UPDATE that announces the route alone, its header, the lengths of its two fields, its attributes and its prefix, is no
    longer than a message to the client may be."""
    attributes = passed_on(candidate)
    field = sum(attribute_size(kind, octets, session.size) for kind, (_, octets) in attributes.items())
    return HEADER + 2 + 2 + field + spelt_size(candidate.prefix) <= session.limit
