"""What an UPDATE does (docs/DEFINITIONS.md, "What an UPDATE does"; RFC 4271, 4.3 and 6.3; RFC 7606, 2 to 5)."""
from .attributes import MANDATORY, UNKNOWN, WITHDRAW, read
from .octets import Malformed, cut, number, prefixes


class Reset(Malformed):
    """The session is reset."""


def behind_its_length(octets):
    """A field behind its length in two octets, and what follows it."""
    size, octets = cut(octets, 2)
    return cut(octets, number(size))


def effect(body, size):
    """The prefixes that the UPDATE with this body withdraws, those that it announces, and the attributes of these, where AS
    numbers have so many octets."""
    withdrawn, behind = behind_its_length(body)
    field, nlri = behind_its_length(behind)
    withdrawn, announced = prefixes(withdrawn), prefixes(nlri)
    attributes, outcomes, is_mp_twice = read(field, size)
    if is_mp_twice:
        raise Reset("MP_REACH_NLRI or MP_UNREACH_NLRI twice (RFC 7606, 3, g)")
    if WITHDRAW in outcomes and not nlri:
        raise Reset("an attribute that is treat-as-withdraw, and no NLRI (RFC 7606, 5.2)")
    if UNKNOWN in outcomes:
        raise Reset("an unrecognized well-known attribute (RFC 4271, 6.3)")
    if WITHDRAW in outcomes or any(kind not in attributes for kind in MANDATORY):
        return {*withdrawn, *announced}, set(), None
    return {*withdrawn} - {*announced}, {*announced}, attributes
