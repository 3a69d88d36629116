"""What an OPEN says (docs/DEFINITIONS.md, "OPEN, and the messages that a session says"; RFC 4271, 4.2 and 6.2; RFC 5492, 4)."""
import collections
import struct

from .octets import Malformed, cut, number

CAPABILITIES = 2
# Codes of capabilities: RFC 8654, 3, and RFC 6793, 3.
EXTENDED_MESSAGE, FOUR_OCTET_AS = 6, 65

# What a good OPEN says: the AS number, its BGP Identifier, in how many octets it spells AS numbers, and whether it takes long messages.
Open = collections.namedtuple("Open", "number identifier size is_long")


def triples(octets):
    """Triples: an octet of type or code, one of length, and a value of that many."""
    while octets:
        (kind, size), octets = cut(octets, 2)
        value, octets = cut(octets, size)
        yield kind, value


def capabilities(parameters):
    """The capabilities of all parameters, which must be of type 2; an AS number has four octets."""
    found = []
    for kind, value in triples(parameters):
        if kind != CAPABILITIES:
            raise Malformed(f"a parameter of type {kind}")
        found += triples(value)
    if any(code == FOUR_OCTET_AS and len(value) != 4 for code, value in found):
        raise Malformed("an AS number of other than four octets")
    return found


def read_open(body):
    """What the OPEN with this body says, where it is a good one."""
    fixed, parameters = cut(body, 10)
    version, my_as, hold, identifier, size = struct.unpack(">BHHIB", fixed)
    if version != 4 or size != len(parameters) or hold in (1, 2) or not identifier:
        raise Malformed(f"the OPEN {body.hex()}")
    found = capabilities(parameters)
    four = [number(value) for code, value in found if code == FOUR_OCTET_AS]
    return Open(four[0] if four else my_as, identifier, 4 if four else 2, (EXTENDED_MESSAGE, b"") in found)
