"""TCP segments from captures: pcap, pcapng, and what Ethernet, loopback or Linux's cooked form carry.

The files are read here; what a packet carries is told by dpkt, so this module alone needs it.
"""
import bz2
import collections
import gzip
import socket
import struct

from .notes import Fault

try:
    import dpkt
except ImportError:
    dpkt = None

# Times are nanoseconds. `missing` counts the octets of the payload that the capture cut off.
Packet = collections.namedtuple("Packet", "time place link octets")
Segment = collections.namedtuple("Segment", "time place source target sequence acknowledged flags payload missing")

# The greatest packet or block that is believed: tcpdump's own limit is 262,144 octets.
MOST = 1 << 26
MAGICS = {0xA1B2C3D4: 1000, 0xA1B23C4D: 1}
SECTION, INTERFACE, OLD, SIMPLE, ENHANCED = 0x0A0D0D0A, 1, 2, 3, 6
# Blocks of pcapng that carry no packet: names, statistics, systemd's journal, secrets, and custom ones.
SILENT = {4, 5, 9, 10, 0x0BAD, 0x40000BAD}


class Source:
    """A file that is taken in pieces, unpacked where it is gzip's or bzip2's. What is cut off ends it with a word."""

    def __init__(self, path, notes):
        self.name, self.notes, self.ended = str(path), notes, False
        try:
            with open(path, "rb") as file:
                first = file.read(3)
            self.file = gzip.open(path) if first[:2] == b"\x1f\x8b" else bz2.open(path) if first == b"BZh" else open(path, "rb")
        except OSError as fault:
            raise Fault(f"{path}: {fault.strerror or fault}") from None

    def take(self, count, place, between=False):
        """So many octets, or None behind the end; the end is one where it comes `between` packets."""
        if self.ended:
            return None
        if not 0 <= count <= MOST:
            return self.end(f"{place}: a length of {count} octets; the rest of the file is not read")
        try:
            octets = self.file.read(count)
        except (OSError, EOFError) as fault:
            return self.end(f"{place}: {fault}; the rest of the file is not read")
        if len(octets) == count:
            return octets
        return self.end(None if between and not octets else f"{place}: the file is cut off here")

    def end(self, text):
        self.ended = True
        self.file.close()
        if text:
            self.notes.say(f"{self.name}: {text}")


def read_pcap(source, head):
    """The packets of a pcap file whose first four octets were taken (the IETF's draft on pcap, 4 and 5)."""
    order = "<" if struct.unpack("<I", head)[0] in MAGICS else ">"
    unit = MAGICS[struct.unpack(order + "I", head)[0]]
    rest = source.take(20, "the file's header")
    if rest is None:
        return
    link, number = struct.unpack(order + "I", rest[16:])[0] & 0xFFFF, 0
    while True:
        number += 1
        place = f"packet {number}"
        header = source.take(16, place, between=True)
        octets = header and source.take(struct.unpack_from(order + "I", header, 8)[0], place)
        if octets is None:
            return
        seconds, parts = struct.unpack_from(order + "II", header)
        yield Packet(seconds * 10**9 + parts * unit, f"{source.name}: {place}", link, octets)


def options_of(octets, order):
    """The options of a block, by their code (the IETF's draft on pcapng, 3.5)."""
    at, found = 0, {}
    while at + 4 <= len(octets):
        code, size = struct.unpack_from(order + "HH", octets, at)
        if code == 0:
            break
        found[code] = octets[at + 4 : at + 4 + size]
        at += 4 + (size + 3) // 4 * 4
    return found


def interface_of(body, order):
    """The link of an interface, its ticks to a second and its offset in seconds (the draft on pcapng, 4.2)."""
    options = options_of(body[8:], order)
    finest = options.get(9, b"\6")[0]
    ticks = 2 ** (finest & 0x7F) if finest & 0x80 else 10**finest
    offset = struct.unpack(order + "q", options[14])[0] if len(options.get(14, b"")) == 8 else 0
    return struct.unpack_from(order + "H", body)[0], ticks, offset


def packet_of(kind, body, order, interfaces):
    """The time, link and octets of a packet's block, or None (the draft on pcapng, 4.3 and appendix A)."""
    if len(body) < 20:
        return None
    at, high, low, size = struct.unpack_from(order + "IIII", body)
    if kind == OLD:
        at = struct.unpack_from(order + "H", body)[0]
    if at >= len(interfaces) or size > len(body) - 20:
        return None
    link, ticks, offset = interfaces[at]
    return (offset * 10**9 + (high << 32 | low) * 10**9 // ticks, link, body[20 : 20 + size])


def read_block(source, head, order, place):
    """The block of a pcapng file whose first four octets were taken: its order, kind and body (the draft on pcapng, 3.1, 4.1)."""
    rest = source.take(4, place)
    if rest is None:
        return None
    kind, size = struct.unpack(order + "II", head + rest)
    body = b""
    if kind == SECTION:
        body = source.take(4, place)
        if body is None:
            return None
        order = "<" if body == b"\x4d\x3c\x2b\x1a" else ">"
        size = struct.unpack(order + "I", rest)[0]
    rest = source.take(size - 8 - len(body) if size % 4 == 0 else -1, place)
    return None if rest is None else (order, kind, (body + rest)[:-4])


def read_pcapng(source, head, notes):
    """The packets of a pcapng file whose first four octets were taken. Packets and blocks are counted from 1."""
    order, interfaces, blocks, number = "<", [], 0, 0
    while head:
        blocks += 1
        block = read_block(source, head, order, f"block {blocks}, behind packet {number}")
        if block is None:
            return
        order, kind, body = block
        if kind == SECTION:
            interfaces = []
        elif kind == INTERFACE and len(body) >= 8:
            interfaces.append(interface_of(body, order))
        elif kind in (OLD, ENHANCED):
            number += 1
            packet = packet_of(kind, body, order, interfaces)
            if packet:
                yield Packet(packet[0], f"{source.name}: packet {number}", *packet[1:])
            else:
                notes.passed("packets of pcapng whose block is not sound")
        elif kind == SIMPLE:
            number += 1
            notes.passed("packets of pcapng without a time")
        elif kind not in SILENT:
            notes.passed(f"blocks of pcapng of kind {kind}")
        head = source.take(4, f"block {blocks + 1}, behind packet {number}", between=True)


def links():
    """What takes a frame apart, by the kind of its link (the list of link types at tcpdump.org)."""
    raw = lambda frame: dpkt.dpkt.Packet(data=dpkt.ip.IP(frame) if frame[:1] and frame[0] >> 4 == 4 else dpkt.ip6.IP6(frame))
    loop, cooked = dpkt.loopback.Loopback, dpkt.sll.SLL
    return {0: loop, 108: loop, 1: dpkt.ethernet.Ethernet, 113: cooked, 276: dpkt.sll2.SLL2, 12: raw, 14: raw, 101: raw, 228: raw}


def inside(octets, link, takers):
    """The IPv4 packet in a frame, or the word for what it is instead."""
    if link not in takers:
        return f"packets on a link of kind {link}"
    try:
        inner = takers[link](octets).data
    except (dpkt.UnpackError, IndexError, struct.error):
        return "packets that are cut off or malformed"
    if isinstance(inner, dpkt.ip6.IP6):
        return "packets of IPv6"
    return inner if isinstance(inner, dpkt.ip.IP) else "packets of neither IPv4 nor IPv6"


def segments(packets, notes):
    """The TCP segments of packets over IPv4 (RFC 791, RFC 9293, 3.1)."""
    takers = links()
    for packet in packets:
        found = inside(packet.octets, packet.link, takers)
        if isinstance(found, str):
            notes.passed(found)
        elif found.p != 6:
            notes.passed("packets of IPv4 that are not TCP")
        elif found.mf or found.offset:
            notes.passed("fragments of IPv4 packets with TCP")
        elif not isinstance(found.data, dpkt.tcp.TCP):
            notes.passed("TCP segments that are cut off in their header")
        else:
            yield segment_of(packet, found, found.data)


def segment_of(packet, found, tcp):
    # A length of 0 is what Linux says where the segment is longer than the field can say.
    size = found.len - 4 * found.hl - 4 * tcp.off if found.len else len(tcp.data)
    ends = (socket.inet_ntoa(found.src), tcp.sport), (socket.inet_ntoa(found.dst), tcp.dport)
    missing = max(0, size - len(tcp.data))
    return Segment(packet.time, packet.place, *ends, tcp.seq, tcp.ack, tcp.flags, bytes(tcp.data), missing)
