"""Prefixes, headers and messages as octets (docs/DEFINITIONS.md, "Octets"; RFC 4271, 4.1 to 4.5 and 6.1; RFC 8654; RFC 2918)."""
import functools

MARKER = b"\xff" * 16
HEADER = len(MARKER) + 3
OPEN, UPDATE, NOTIFICATION, KEEPALIVE, ROUTE_REFRESH = range(1, 6)
# The longest message: RFC 4271, 4.1, and RFC 8654, 4.
LONGEST, LONGEST_EXTENDED = 4096, 65_535


class Malformed(ValueError):
    """Octets are not what the standards ask for."""


def number(octets):
    return int.from_bytes(octets, "big")


def cut(octets, size):
    """The first octets, so many, and those behind them."""
    if len(octets) < size:
        raise Malformed(f"{len(octets)} octets in place of {size}")
    return octets[:size], octets[size:]


def prefix_of(bits, length):
    """The prefix of this length with these bits; those beyond the length are 0."""
    beyond = 32 - length
    return bits >> beyond << beyond, length


def spelt_size(prefix):
    """How many octets a field has of a prefix: its length, and the fewest that hold so many bits."""
    return 1 + (prefix[1] + 7) // 8


@functools.lru_cache(256)
def prefixes(field):
    """What a field of prefixes holds (RFC 4271, 4.3 and 6.3)."""
    found = []
    while field:
        length = field[0]
        if length > 32:
            raise Malformed(f"a prefix of {length} bits")
        spelt, field = cut(field[1:], (length + 7) // 8)
        found.append(prefix_of(number(spelt.ljust(4, b"\0")), length))
    return tuple(found)


def lengths(kind, longest, has_refresh):
    """The least and the greatest length of a message of this type, or None where there is none."""
    return {
        OPEN: (29, LONGEST),
        UPDATE: (23, longest),
        NOTIFICATION: (21, longest),
        KEEPALIVE: (19, 19),
        **({ROUTE_REFRESH: (23, 23)} if has_refresh else {}),
    }.get(kind)


def checked(header, longest, has_refresh):
    """The length and the type that a header says, where it is good."""
    length, kind = number(header[16:18]), header[18]
    allowed = lengths(kind, longest, has_refresh)
    if header[:16] != MARKER or allowed is None or not allowed[0] <= length <= allowed[1]:
        raise Malformed(f"the header {header.hex()}")
    return length, kind


def messages(octets, longest, has_refresh):
    """The cut of octets: the type and the body of each message, and behind them None in the place of a type, with the rest.
    The fault of a header, with which the rest begins, is raised in its turn."""
    at = 0
    while len(octets) - at >= HEADER:
        length, kind = checked(octets[at : at + HEADER], longest, has_refresh)
        if len(octets) - at < length:
            break
        yield kind, octets[at + HEADER : at + length]
        at += length
    yield None, octets[at:]
