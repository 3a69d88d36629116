"""Tests of the forms of captures, and of what the server sent."""
import bz2
import gzip
import struct
import unittest

from capture import members
from capture import recorded as recorded_session
from captures.packets import (
    A, ACK, ipv4, KEEPALIVE, made, NAME_A, OPEN_SERVER, pcap, pcapng, PLAIN, plain, said_by, SERVER, START, tcp,
)


class Server(unittest.TestCase):
    """What the server sent, and behind which line of the session."""

    def test_lines_and_connections(self):
        told = []
        recorder, sent = recorded_session.Recorder(recorded_session.Sent(told.append).tell, 1), members.Event
        events = [
            sent(START, "open", "a", b"", "packet 1"),
            sent(START, "sent", "a", b"\1" * 4097, "packet 2"),
            sent(START, "octets", "a", b"\2", "packet 3"),
            sent(START, "sent", "a", b"\3", "packet 4"),
        ]
        lines = list(recorder.lines(events))
        self.assertEqual(lines[1:], ["moment 0", "# packet 1", "open a", "octets a 02", "turn", "room a 1000000000"])
        wanted = ["after 5", "open a", "sent a " + "01" * 4096, "sent a 01", "after 6", "sent a 03"]
        self.assertEqual("".join(told).splitlines(), wanted)


class Links(unittest.TestCase):
    """The forms of captures and of what carries IPv4."""

    def whole(self, octets):
        status, session, sent, _, said = made(octets)
        self.assertEqual((status, session), (0, PLAIN), said)
        self.assertEqual(said_by(sent), [f"sent {NAME_A} {it.hex()}" for it in (OPEN_SERVER, KEEPALIVE)])

    def test_ethernet(self):
        self.whole(pcap(plain()))

    def test_big_endian_and_nanoseconds(self):
        self.whole(pcap(plain(), order=">", magic=0xA1B23C4D, unit=10**9))

    def test_vlan(self):
        self.whole(pcap(plain(), frame=lambda it: b"\0" * 12 + b"\x81\0\0\5\x08\0" + it))

    def test_loopback_of_either_order(self):
        self.whole(pcap(plain(), link=0, frame=lambda it: b"\2\0\0\0" + it))
        self.whole(pcap(plain(), link=108, frame=lambda it: b"\0\0\0\2" + it))

    def test_cooked(self):
        self.whole(pcap(plain(), link=113, frame=lambda it: struct.pack(">HHH8sH", 0, 1, 6, b"", 0x800) + it))
        self.whole(pcap(plain(), link=276, frame=lambda it: struct.pack(">HHIHBB8s", 0x800, 0, 1, 1, 0, 6, b"") + it))

    def test_plain_ip(self):
        self.whole(pcap(plain(), link=101, frame=lambda it: it))

    def test_pcapng(self):
        self.whole(pcapng(plain()))
        self.whole(pcapng(plain(), order=">"))

    def test_packed(self):
        self.whole(gzip.compress(pcap(plain())))
        self.whole(bz2.compress(pcap(plain())))

    def test_several_files(self):
        packets = plain()
        status, session, *_ = made(pcap(packets[6:]), pcap(packets[:6]))
        self.assertEqual((status, session), (0, PLAIN))

    def test_others_are_counted(self):
        udp, part = ipv4(A, SERVER, bytes(8), protocol=17), ipv4(A, SERVER, bytes(30), more=0x2000)
        ipv6 = struct.pack(">IHBB", 6 << 28, 0, 59, 64) + bytes(32)
        frame = lambda it: b"\0" * 12 + (b"\x86\xdd" if it[0] >> 4 == 6 else b"\x08\0") + it
        other = ipv4("192.0.2.77", "192.0.2.78", tcp(1, 2, 3, 4, ACK))
        *_, said = made(pcap([(0, udp), (0, part), (0, ipv6), (0, ipv6), (0, other), *plain()], frame=frame))
        for text in ("not TCP: 1", "fragments of IPv4 packets with TCP: 1", "IPv6: 2", "TCP segments between others: 1"):
            self.assertIn(text, said)
