"""MRT dumps, made octet by octet from the same messages."""
import socket
import struct

from captures.packets import A, B, SERVER, START, UPDATE


def record(kind, subtype, body, time=START):
    """An MRT record (RFC 6396, 2)."""
    return struct.pack(">IHHI", time, kind, subtype, len(body)) + body


def heading(width=4, peer=A, local=SERVER, peer_number=64496, local_number=64500, family=1):
    """What records of BGP4MP begin with (RFC 6396, 4.4.1 to 4.4.4)."""
    numbers = struct.pack(">HH" if width == 2 else ">II", peer_number, local_number)
    return numbers + struct.pack(">HH", 0, family) + socket.inet_aton(peer) + socket.inet_aton(local)


def message(octets, **more):
    return heading(**more) + octets


def bgp4mp(body, subtype=4, time=START):
    return record(16, subtype, body, time)


def change(old, new, width=4, **more):
    """A change of state (RFC 6396, 4.4.1 and 4.4.4)."""
    return bgp4mp(heading(width=width) + struct.pack(">HH", old, new), subtype=5 if width == 4 else 0, **more)


def peers(*entries):
    """A table of peers: kind, identifier, address and AS number of each (RFC 6396, 4.3.1)."""
    body = bytes([198, 51, 100, 7]) + b"\0\4view" + struct.pack(">H", len(entries))
    for kind, address, number in entries:
        body += bytes([kind]) + bytes(4) + (bytes(16) if kind & 1 else socket.inet_aton(address))
        body += number.to_bytes(4 if kind & 2 else 2, "big")
    return record(13, 1, body)


def routes(prefix, *entries):
    """The routes to a prefix, given as its octets in an UPDATE (RFC 6396, 4.3.2 and 4.3.4)."""
    body = struct.pack(">I", 0) + prefix + struct.pack(">H", len(entries))
    for peer, attributes in entries:
        body += struct.pack(">HIH", peer, START, len(attributes)) + attributes
    return record(13, 2, body)


# The attributes of the route of first_route, and its prefix.
ATTRIBUTES, PREFIX = UPDATE[23:43], UPDATE[43:]
# An OPEN that is made up: AS 64496, no Hold Time, the peer's address, and capability 65 or none (RFC 4271, 4.2).
MADE_UP = bytes.fromhex("ff" * 16 + "0025" + "01" + "04" + "fbf0" + "0000" + "c000020b" + "08" + "0206" + "41040000fbf0")
MADE_UP_SHORT = bytes.fromhex("ff" * 16 + "001d" + "01" + "04" + "fbf0" + "0000" + "c000020b" + "00")


def dump_of_table():
    return peers((2, A, 64496), (0, B, 64497), (1, None, 64498)) + routes(PREFIX, (0, ATTRIBUTES), (2, ATTRIBUTES))
