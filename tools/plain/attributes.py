"""Path attributes (docs/DEFINITIONS.md, "Path attributes"; RFC 4271, 4.3, 5 and 6.3; RFC 7606, 3 and 7; RFC 6793, 4)."""
import collections
import functools

from .octets import Malformed, cut, number
from .paths import PLAIN, WITH_CONFEDERATIONS, merged, segments, spelt

ORIGIN, AS_PATH, NEXT_HOP, MULTI_EXIT_DISC, LOCAL_PREF, ATOMIC_AGGREGATE, AGGREGATOR, COMMUNITIES = range(1, 9)
ORIGINATOR_ID, CLUSTER_LIST = 9, 10
MP_REACH_NLRI, MP_UNREACH_NLRI, EXTENDED_COMMUNITIES, AS4_PATH, AS4_AGGREGATOR = range(14, 19)
LARGE_COMMUNITY = 32
MANDATORY = (ORIGIN, AS_PATH, NEXT_HOP)
AS_TRANS = 23456

OPTIONAL, TRANSITIVE, PARTIAL, LONG = 0x80, 0x40, 0x20, 0x10
WELL_KNOWN, OPTIONAL_TRANSITIVE, OPTIONAL_NON_TRANSITIVE = TRANSITIVE, OPTIONAL | TRANSITIVE, OPTIONAL
# What comes of an attribute (RFC 7606, 2): the last resets the session.
KEPT, WITHDRAW, DISCARD, UNKNOWN = "kept", "treat-as-withdraw", "discard", "unrecognized"

# What is known of a type: its flags (None where they aren't looked at), which values are well formed where AS numbers have so
# many octets, and what comes of others.
Row = collections.namedtuple("Row", "flags is_good otherwise")


def is_path(octets, size, kinds=PLAIN):
    try:
        segments(octets, size, kinds)
    except Malformed:
        return False
    return True


def of(length):
    """Values of this length."""
    return lambda octets, size: len(octets) == length


def items_of(length):
    """Values that are one item or more of this length (RFC 7606, 7.8 and 7.14; RFC 8092, 6)."""
    return lambda octets, size: bool(octets) and len(octets) % length == 0


def never(octets, size):
    return False


TABLE = {
    ORIGIN: Row(WELL_KNOWN, lambda octets, size: octets in (b"\0", b"\1", b"\2"), WITHDRAW),
    AS_PATH: Row(WELL_KNOWN, is_path, WITHDRAW),
    NEXT_HOP: Row(WELL_KNOWN, of(4), WITHDRAW),
    MULTI_EXIT_DISC: Row(OPTIONAL_NON_TRANSITIVE, of(4), WITHDRAW),
    LOCAL_PREF: Row(None, never, DISCARD),
    ATOMIC_AGGREGATE: Row(WELL_KNOWN, of(0), DISCARD),
    AGGREGATOR: Row(OPTIONAL_TRANSITIVE, lambda octets, size: len(octets) == size + 4, DISCARD),
    COMMUNITIES: Row(OPTIONAL_TRANSITIVE, items_of(4), WITHDRAW),
    ORIGINATOR_ID: Row(None, never, DISCARD),
    CLUSTER_LIST: Row(None, never, DISCARD),
    MP_REACH_NLRI: Row(None, never, DISCARD),
    MP_UNREACH_NLRI: Row(None, never, DISCARD),
    EXTENDED_COMMUNITIES: Row(OPTIONAL_TRANSITIVE, items_of(8), WITHDRAW),
    LARGE_COMMUNITY: Row(OPTIONAL_TRANSITIVE, items_of(12), WITHDRAW),
}
# A four-octet peer sends neither (RFC 6793, 4.1).
OF_TWO_OCTETS = {
    AS4_PATH: Row(OPTIONAL_TRANSITIVE, lambda octets, size: bool(octets) and is_path(octets, 4, WITH_CONFEDERATIONS), DISCARD),
    AS4_AGGREGATOR: Row(OPTIONAL_TRANSITIVE, of(8), DISCARD),
}
OF_FOUR_OCTETS = dict.fromkeys(OF_TWO_OCTETS, Row(None, never, DISCARD))
# Types whose partial bit is clear, and those of which it stays as it came (RFC 4271, 5).
CLEAR = {ORIGIN, AS_PATH, NEXT_HOP, MULTI_EXIT_DISC, ATOMIC_AGGREGATE}
AS_RECEIVED = {AGGREGATOR, COMMUNITIES, EXTENDED_COMMUNITIES, LARGE_COMMUNITY}

# What a field of path attributes comes to: the attributes that it means, what comes of others, and whether MP_REACH_NLRI or
# MP_UNREACH_NLRI stands twice.
Field = collections.namedtuple("Field", "attributes outcomes is_mp_twice")


def spellings(field):
    """The spellings of attributes of which a field is made, each its flags, type and value; behind them None for a rest."""
    while field:
        try:
            (flags, kind), octets = cut(field, 2)
            size, octets = cut(octets, 2 if flags & LONG else 1)
            value, field = cut(octets, number(size))
        except Malformed:
            yield None
            return
        yield flags, kind, value


def row_of(kind, size):
    return TABLE.get(kind) or (OF_TWO_OCTETS if size == 2 else OF_FOUR_OCTETS).get(kind)


def outcome(flags, kind, value, size):
    """What comes of a spelling that counts: flags are checked first."""
    row = row_of(kind, size)
    if row is None:
        return KEPT if flags & OPTIONAL else UNKNOWN
    if row.flags is not None and flags & (OPTIONAL | TRANSITIVE) != row.flags:
        return WITHDRAW
    return KEPT if row.is_good(value, size) else row.otherwise


def flags_meant(flags, kind):
    """The flags of an attribute that is kept: its class, and the partial bit that it has from here on (RFC 4271, 5)."""
    partial = flags & PARTIAL
    if kind in CLEAR:
        partial = 0
    elif kind not in AS_RECEIVED and flags & TRANSITIVE:
        partial = PARTIAL
    return flags & (OPTIONAL | TRANSITIVE) | partial


def widened(kept):
    """The attributes that a two-octet peer means by these (RFC 6793, 4.2.3)."""
    meant = {kind: it for kind, it in kept.items() if kind not in OF_TWO_OCTETS}
    aggregator, as4_aggregator = kept.get(AGGREGATOR), kept.get(AS4_AGGREGATOR)
    is_ignored = aggregator and as4_aggregator and number(aggregator[1][:2]) != AS_TRANS
    if aggregator:
        is_replaced = as4_aggregator and not is_ignored
        meant[AGGREGATOR] = aggregator[0], as4_aggregator[1] if is_replaced else b"\0\0" + aggregator[1]
    if AS_PATH in kept:
        flags, octets = kept[AS_PATH]
        as4_path = kept[AS4_PATH][1] if AS4_PATH in kept and not is_ignored else b""
        meant[AS_PATH] = flags, spelt(merged(segments(octets, 2), segments(as4_path, 4, WITH_CONFEDERATIONS)), 4)
    return meant


@functools.lru_cache(4096)
def read(field, size):
    """What a field of path attributes means, in which AS numbers have so many octets. Of each type the first spelling counts,
    also where it isn't kept (RFC 7606, 3, g)."""
    kept, came, outcomes, is_mp_twice = {}, set(), set(), False
    for it in spellings(field):
        if it is None:
            outcomes.add(WITHDRAW)
            continue
        flags, kind, value = it
        if kind in came:
            is_mp_twice |= kind in (MP_REACH_NLRI, MP_UNREACH_NLRI)
            continue
        came.add(kind)
        found = outcome(flags, kind, value, size)
        outcomes.add(found)
        if found == KEPT:
            kept[kind] = flags_meant(flags, kind), value
    return Field(widened(kept) if size == 2 else kept, frozenset(outcomes), is_mp_twice)


def value(attributes, kind):
    """The octets of the attribute of this type, or none."""
    return attributes[kind][1] if kind in attributes else b""


def path(attributes):
    """The segments of AS_PATH, if any."""
    return segments(value(attributes, AS_PATH), 4)
