"""BGP messages: their cutting from a stream (RFC 4271, 4.1), and OPENs (RFC 4271, 4.2)."""
import collections
import socket
import struct

MARKER = b"\xff" * 16
OPEN, UPDATE, NOTIFICATION, KEEPALIVE, ROUTE_REFRESH = 1, 2, 3, 4, 5
# Capabilities: RFC 4760, 8; RFC 2918; RFC 8654; RFC 6793; RFC 7911.
MULTIPROTOCOL, REFRESH, EXTENDED, FOUR_OCTETS, ADD_PATH = 1, 2, 6, 65, 69
IPV4_UNICAST = b"\0\1\0\1"
AS_TRANS = 23456

# Capabilities are pairs of a code and a value, in their order.
Open = collections.namedtuple("Open", "number hold identifier capabilities")


def message(kind, body=b""):
    """A message with its header (RFC 4271, 4.1)."""
    return MARKER + struct.pack(">HB", 19 + len(body), kind) + body


def ends(octets):
    """Where each whole message of a stream ends, up to the first header that is none (RFC 4271, 4.1 and 6.1)."""
    at = 0
    while len(octets) - at >= 19 and octets[at : at + 16] == MARKER:
        size = struct.unpack_from(">H", octets, at + 16)[0]
        if size < 19 or len(octets) - at < size:
            return
        at += size
        yield at


def capabilities_of(parameters, width):
    """The capabilities in optional parameters whose lengths have this width in octets (RFC 5492, 4; RFC 9072, 2)."""
    at, found = 0, []
    while at + 1 + width <= len(parameters):
        kind, size = parameters[at], int.from_bytes(parameters[at + 1 : at + 1 + width], "big")
        value = parameters[at + 1 + width : at + 1 + width + size]
        at += 1 + width + size
        inner = 0
        while kind == 2 and inner + 2 <= len(value):
            found.append((value[inner], bytes(value[inner + 2 : inner + 2 + value[inner + 1]])))
            inner += 2 + value[inner + 1]
    return found


def read_open(octets):
    """What a message says if it is an OPEN (RFC 4271, 4.2; RFC 6793, 4.1 for the AS number), or None."""
    if len(octets) < 29 or octets[18] != OPEN:
        return None
    number, hold, identifier, size = struct.unpack_from(">HH4sB", octets, 20)
    parameters, width = octets[29 : 29 + size], 1
    if len(octets) >= 32 and octets[28] == 255 and octets[29] == 255:
        parameters, width = octets[32:], 2
    capabilities = capabilities_of(parameters, width)
    for code, value in capabilities:
        if code == FOUR_OCTETS and len(value) == 4:
            number = int.from_bytes(value, "big")
    return Open(number, hold, socket.inet_ntoa(identifier), capabilities)


def make_open(it):
    """The OPEN that says this (RFC 4271, 4.2), each capability in a parameter of its own (RFC 5492, 4; RFC 9072, 2)."""
    short = it.number if it.number < 65536 else AS_TRANS
    body = struct.pack(">BHH4s", 4, short, it.hold, socket.inet_aton(it.identifier))
    parts = [bytes([code, len(value)]) + value for code, value in it.capabilities]
    if sum(len(part) + 2 for part in parts) > 254:
        parameters = b"".join(b"\2" + struct.pack(">H", len(part)) + part for part in parts)
        return message(OPEN, body + b"\xff\xff" + struct.pack(">H", len(parameters)) + parameters)
    parameters = b"".join(bytes([2, len(part)]) + part for part in parts)
    return message(OPEN, body + bytes([len(parameters)]) + parameters)


def made_up(number, address, four):
    """An OPEN for a member whose own is not there: no Hold Time, since its KEEPALIVEs may not be there either."""
    return Open(number, 0, address, [(FOUR_OCTETS, struct.pack(">I", number))] if four else [])


def has(it, code):
    """Whether an OPEN has a capability."""
    return any(code == other for other, _ in it.capabilities)


def in_width(it, four):
    """The same OPEN, with the capability for four-octet AS numbers or without (RFC 6793, 3)."""
    rest = [(code, value) for code, value in it.capabilities if code != FOUR_OCTETS]
    return it._replace(capabilities=rest + [(FOUR_OCTETS, struct.pack(">I", it.number))] if four else rest)


def has_family(it, family=IPV4_UNICAST):
    """Whether an OPEN offers a family (RFC 4760, 8)."""
    return (MULTIPROTOCOL, family) in it.capabilities


def adds_paths(it, ways):
    """Whether an OPEN offers ADD-PATH for IPv4 unicast in one of these ways: 1 receives, 2 sends, 3 both (RFC 7911, 4)."""
    fields = [value for code, value in it.capabilities if code == ADD_PATH]
    entries = [field[at : at + 4] for field in fields for at in range(0, len(field), 4)]
    return any(entry[:3] == IPV4_UNICAST[:2] + b"\1" and entry[3:] and entry[3] in ways for entry in entries)
