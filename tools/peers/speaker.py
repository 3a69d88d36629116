"""One end of a BGP session over a socket, for the tools that play members to a server.

A Speaker says who it is, keeps its session up and hands on what it hears; what it does with that is its subclass's.
"""
import contextlib
import socket
import struct
import time

MARKER = b"\xff" * 16
OPEN, UPDATE, NOTIFICATION, KEEPALIVE, ROUTE_REFRESH = 1, 2, 3, 4, 5
IPV4_UNICAST = b"\x01\x04\x00\x01\x00\x01"


def message(kind, body=b""):
    """A BGP message."""
    return MARKER + struct.pack(">HB", 19 + len(body), kind) + body


def update(withdrawn=b"", field=b"", nlri=b""):
    """An UPDATE of these fields."""
    return message(UPDATE, struct.pack(">H", len(withdrawn)) + withdrawn + struct.pack(">H", len(field)) + field + nlri)


def attribute(flags, kind, value):
    """A path attribute, with the short form of its length where it fits."""
    if len(value) > 255:
        return bytes([flags | 0x10, kind]) + struct.pack(">H", len(value)) + value
    return bytes([flags, kind, len(value)]) + value


def attributes(path, next_hop, med=None, communities=()):
    """ORIGIN, AS_PATH of one sequence of four-octet numbers (or none), NEXT_HOP, and what else is given; communities are pairs."""
    field = attribute(0x40, 1, b"\0")
    field += attribute(0x40, 2, struct.pack(f">BB{len(path)}I", 2, len(path), *path) if path else b"")
    field += attribute(0x40, 3, socket.inet_aton(next_hop))
    if med is not None:
        field += attribute(0x80, 4, struct.pack(">I", med))
    if communities:
        field += attribute(0xC0, 8, b"".join(struct.pack(">HH", *it) for it in communities))
    return field


def prefixes(field):
    """The prefixes of a field, each as its length and its octets."""
    at = 0
    while at < len(field):
        size = 1 + (field[at] + 7) // 8
        yield bytes(field[at : at + size])
        at += size


def connected(server, source, window=None):
    """A socket connected from this address, which waits for nothing."""
    it = socket.socket()
    try:
        if window:
            it.setsockopt(socket.SOL_SOCKET, socket.SO_RCVBUF, window)
        it.settimeout(5)
        it.bind((source, 0))
        it.connect(server)
    except OSError:
        it.close()
        raise
    it.setblocking(False)
    return it


class Speaker:
    """A member's end of a session. `came_up`, `told_of` and `refused` are for the subclass."""

    # The Hold Time that it offers, in seconds.
    hold = 90
    # What its receive buffer takes, where that is not the system's choice.
    window = None

    def __init__(self, number, address, server, source, capabilities=b""):
        self.heard, self.is_up, self.beat = bytearray(), False, time.monotonic()
        self.socket = connected(server, source, self.window)
        capabilities += b"\x41\x04" + struct.pack(">I", number)
        short = number if number < 65536 else 23456
        body = struct.pack(">BHHI", 4, short, self.hold, int.from_bytes(socket.inet_aton(address), "big"))
        parameters = b"\x02" + bytes([len(capabilities)]) + capabilities
        self.out = bytearray(message(OPEN, body + bytes([len(parameters)]) + parameters) + message(KEEPALIVE))

    def write(self):
        """Sends what the socket takes, and a KEEPALIVE where it is time for one."""
        if time.monotonic() > self.beat + self.hold / 4:
            self.out += message(KEEPALIVE)
            self.beat = time.monotonic()
        with contextlib.suppress(BlockingIOError):
            while self.out:
                del self.out[: self.socket.send(self.out[:65536])]

    def read(self):
        """Reads what has come. Answers whether the connection is still there."""
        stays = True
        with contextlib.suppress(BlockingIOError):
            while piece := self.socket.recv(65536):
                self.heard += piece
            stays = False
        at = 0
        while len(self.heard) - at >= 19 and len(self.heard) - at >= (size := struct.unpack_from(">H", self.heard, at + 16)[0]):
            self.hear(self.heard[at + 18], self.heard[at + 19 : at + size])
            at += size
        del self.heard[:at]
        return stays

    def hear(self, kind, body):
        if kind == NOTIFICATION:
            self.refused(body)
        elif kind == KEEPALIVE and not self.is_up:
            self.is_up = True
            self.came_up()
        elif kind == UPDATE:
            withdrawn = struct.unpack(">H", body[:2])[0]
            size = struct.unpack(">H", body[2 + withdrawn : 4 + withdrawn])[0]
            field, nlri = bytes(body[4 + withdrawn : 4 + withdrawn + size]), body[4 + withdrawn + size :]
            self.told_of(body[2 : 2 + withdrawn], field, nlri)
