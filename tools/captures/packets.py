"""Captures, made octet by octet from the messages of examples/sessions/first_route, and what from_capture.py makes of files."""
import contextlib
import io
import pathlib
import socket
import struct
import sys
import tempfile

import from_capture

SESSIONS = pathlib.Path(__file__).resolve().parents[2] / "examples" / "sessions"
SERVER, A, B = "192.0.2.1", "192.0.2.11", "192.0.2.12"
NAME_A, NAME_B = "as64496-192-0-2-11", "as64497-192-0-2-12"
FIN, SYN, RST, ACK = 1, 2, 4, 16
START = 1700000000


def recorded(name, word, client):
    """The messages of a client in a recorded session: those of its `octets` lines, or `sent` lines of what came out."""
    path = SESSIONS / f"{name}.{'trace' if word == 'octets' else 'out'}"
    return [bytes.fromhex(line.split()[2]) for line in path.read_text().splitlines() if line.startswith(f"{word} {client} ")]


OPEN_A, KEEPALIVE, UPDATE = recorded("first_route", "octets", "a")
OPEN_B = recorded("first_route", "octets", "b")[0]
OPEN_SERVER = recorded("first_route", "sent", "a")[0]
OPEN_SHORT = recorded("two_octet_member_is_told", "octets", "b")[0]


def ipv4(source, target, payload, protocol=6, more=0, length=None):
    """An IPv4 packet (RFC 791, 3.1)."""
    size = 20 + len(payload) if length is None else length
    return struct.pack(">BBHHHBBH4s4s", 0x45, 0, size, 1, more, 64, protocol, 0, socket.inet_aton(source), socket.inet_aton(target)) + payload


def tcp(source, target, sequence, acknowledged, flags, payload=b""):
    """A TCP segment (RFC 9293, 3.1)."""
    return struct.pack(">HHIIBBHHH", source, target, sequence % 2**32, acknowledged % 2**32, 0x50, flags, 65535, 0, 0) + payload


class Wire:
    """A connection that is played to a capture: `packets` are pairs of a time in seconds and an IPv4 packet."""

    def __init__(self, packets, member=A, port=40000, server=SERVER, server_port=179, first=1000, server_first=5000):
        self.packets, self.ends = packets, {"member": (member, port), "server": (server, server_port)}
        self.first = {"member": first, "server": server_first}

    def put(self, time, side, at, payload=b"", flags=ACK, known=0):
        """A segment of a side whose octets are at this place of its stream."""
        other = "server" if side == "member" else "member"
        (source, port), (target, other_port) = self.ends[side], self.ends[other]
        segment = tcp(port, other_port, self.first[side] + 1 + at, self.first[other] + 1 + known, flags, payload)
        self.packets.append((time, ipv4(source, target, segment)))

    def begin(self, time, by="member"):
        """The three segments by which a connection is made."""
        other = "server" if by == "member" else "member"
        self.put(time, by, -1, flags=SYN, known=-1)
        self.put(time, other, -1, flags=SYN | ACK)
        self.put(time, by, 0)


def pcap(packets, link=1, order="<", frame=lambda it: b"\0" * 12 + b"\x08\0" + it, magic=0xA1B2C3D4, unit=10**6):
    """A pcap file of packets."""
    octets = struct.pack(order + "IHHIIII", magic, 2, 4, 0, 0, 262144, link)
    for time, packet in packets:
        framed = frame(packet)
        octets += struct.pack(order + "IIII", START + int(time), round(time % 1 * unit), len(framed), len(framed)) + framed
    return octets


def block(order, kind, body):
    """A block of pcapng."""
    body += bytes(-len(body) % 4)
    return struct.pack(order + "II", kind, len(body) + 12) + body + struct.pack(order + "I", len(body) + 12)


def pcapng(packets, order="<"):
    """A pcapng file: an interface of Ethernet with microseconds, one of plain IP with nanoseconds, its packets on both in turn."""
    octets = block(order, 0x0A0D0D0A, struct.pack(order + "IHHq", 0x1A2B3C4D, 1, 0, -1))
    octets += block(order, 1, struct.pack(order + "HHI", 1, 0, 0))
    octets += block(order, 1, struct.pack(order + "HHI", 101, 0, 0) + struct.pack(order + "HHB3xHH", 9, 1, 9, 0, 0))
    octets += block(order, 5, bytes(12))
    for at, (time, packet) in enumerate(packets):
        framed = packet if at % 2 else b"\0" * 12 + b"\x08\0" + packet
        ticks = (START + int(time)) * (10**9 if at % 2 else 10**6) + round(time % 1 * (10**9 if at % 2 else 10**6))
        octets += block(order, 6, struct.pack(order + "IIIII", at % 2, ticks >> 32, ticks & 0xFFFFFFFF, len(framed), len(framed)) + framed)
    return octets


def said_by(lines):
    """The lines of octets among those of what the server sent."""
    return [it for it in lines if it.startswith("sent ")]


def made(*files, words=("--server", SERVER)):
    """What is made of files: the status, the lines of the session, of what was sent, of the configuration, and what is said."""
    with tempfile.TemporaryDirectory() as room, contextlib.redirect_stderr(io.StringIO()) as said:
        room, paths = pathlib.Path(room), []
        for at, octets in enumerate(files):
            paths.append(room / f"file{at}")
            paths[-1].write_bytes(octets)
        outs = {word: room / word for word in ("session", "sent", "config")}
        sys.argv = ["from_capture.py", *words, *map(str, paths), *(it for word, path in outs.items() for it in (f"--{word}", str(path)))]
        status = from_capture.main()
        texts = [path.read_text().splitlines() if path.exists() else [] for path in outs.values()]
    return status, *([line for line in text if not line.startswith("#")] for text in texts), said.getvalue()


def octets_of(session, name=NAME_A):
    """All octets of a client in a session."""
    return b"".join(bytes.fromhex(line.split()[2]) for line in session if line.startswith(f"octets {name} "))


def plain(time=0.5):
    """The packets of one member that comes up and announces a route, two seconds after it connected."""
    packets = []
    wire = Wire(packets)
    wire.begin(time)
    wire.put(time, "server", 0, OPEN_SERVER)
    wire.put(time, "member", 0, OPEN_A + KEEPALIVE, known=len(OPEN_SERVER))
    wire.put(time, "server", len(OPEN_SERVER), KEEPALIVE)
    wire.put(time + 2, "member", len(OPEN_A + KEEPALIVE), UPDATE)
    wire.put(time + 3, "member", len(OPEN_A + KEEPALIVE + UPDATE), flags=FIN | ACK)
    return packets


ROOM_A = f"room {NAME_A} 1000000000"
PLAIN = [
    "moment 0",
    f"open {NAME_A}",
    f"octets {NAME_A} {(OPEN_A + KEEPALIVE).hex()}",
    "turn",
    ROOM_A,
    "moment 2",
    f"octets {NAME_A} {UPDATE.hex()}",
    "turn",
    ROOM_A,
    "moment 3",
    f"lost {NAME_A}",
    "turn",
]
