"""Tests of what connections say: who is who, and which sessions they are."""
import struct
import unittest

from captures.packets import (
    A, ACK, B, FIN, KEEPALIVE, made, NAME_A, NAME_B, octets_of, OPEN_A, OPEN_B, OPEN_SERVER, pcap, PLAIN, plain,
    ROOM_A, SERVER, UPDATE, Wire,
)
from captures.dumps import message


class Sessions(unittest.TestCase):
    """What connections say."""

    def test_configuration(self):
        _, _, _, config, _ = made(pcap(plain()))
        server = ["as = 64500", 'identifier = "192.0.2.1"', "hold = 90", "extended = false", "refresh = false", "multiprotocol = false"]
        client = ["", "[[client]]", f'name = "{NAME_A}"', "as = 64496", 'listen = "192.0.2.1:179"', 'peer = "192.0.2.11"']
        self.assertEqual(config, server + client)

    def test_what_the_server_offers(self):
        """Capabilities 1, 2 and 6, and a Hold Time of 3, with an AS number of four octets (RFC 5492, 4)."""
        capabilities = bytes.fromhex("010400010001 0200 0600 4104fa56ea00".replace(" ", ""))
        body = struct.pack(">BHH4sBBB", 4, 23456, 3, bytes([198, 51, 100, 1]), len(capabilities) + 2, 2, len(capabilities))
        offer = b"\xff" * 16 + struct.pack(">HB", 19 + len(body + capabilities), 1) + body + capabilities
        packets = []
        wire = Wire(packets)
        wire.begin(0)
        wire.put(0, "server", 0, offer)
        wire.put(0, "member", 0, OPEN_A)
        _, _, _, config, _ = made(pcap(packets))
        self.assertEqual(config[:6], ["as = 4200000000", 'identifier = "198.51.100.1"', "hold = 3", "extended = true", "refresh = true", "multiprotocol = true"])

    def test_long_parameters(self):
        """The same AS number in parameters whose lengths have two octets (RFC 9072, 2)."""
        parameter = b"\2\0\6\x41\4" + struct.pack(">I", 64500)
        body = OPEN_SERVER[19:28] + b"\xff\xff" + struct.pack(">H", len(parameter)) + parameter
        packets = []
        wire = Wire(packets)
        wire.begin(0)
        wire.put(0, "server", 0, b"\xff" * 16 + struct.pack(">HB", 19 + len(body), 1) + body)
        wire.put(0, "member", 0, OPEN_A)
        _, session, _, config, said = made(pcap(packets))
        self.assertEqual((config[0], octets_of(session)), ("as = 64500", OPEN_A))
        self.assertNotIn("four-octet", said)

    def test_a_hold_time_that_is_none(self):
        packets = []
        wire = Wire(packets)
        wire.begin(0)
        wire.put(0, "server", 0, OPEN_SERVER[:22] + b"\0\2" + OPEN_SERVER[24:])
        wire.put(0, "member", 0, OPEN_A)
        _, _, _, config, said = made(pcap(packets))
        self.assertEqual(config[2], "hold = 90")
        self.assertIn("Hold Time of 2 is none", said)

    def test_the_as_number_that_was_accepted(self):
        """An OPEN of AS 64497 was refused (RFC 4271, 6.2), then one of AS 64496 was not."""
        packets = []
        wire = Wire(packets, port=39999)
        wire.begin(0)
        wire.put(0, "member", 0, OPEN_B)
        wire.put(0, "server", 0, OPEN_SERVER + bytes.fromhex("ff" * 16 + "0015030202"))
        wire.put(0, "server", 37 + 21, flags=FIN | ACK)
        _, session, _, config, _ = made(pcap(packets + plain(time=3)))
        self.assertIn("as = 64496", config)
        self.assertEqual(octets_of(session), OPEN_B + OPEN_A + KEEPALIVE + UPDATE)

    def test_two_members_and_the_turns(self):
        packets = plain()
        wire = Wire(packets, member=B)
        wire.begin(1.6)
        wire.put(1.7, "member", 0, OPEN_B + KEEPALIVE)
        status, session, _, config, _ = made(pcap(sorted(packets, key=lambda it: it[0])))
        room = f"room {NAME_B} 1000000000"
        second = ["moment 1", f"open {NAME_B}", f"octets {NAME_B} {(OPEN_B + KEEPALIVE).hex()}", "turn", ROOM_A, room]
        self.assertEqual((status, session), (0, [*PLAIN[:5], *second, *PLAIN[5:9], room, *PLAIN[9:], room]))
        self.assertIn("as = 64497", config)

    def test_the_server_connects(self):
        packets = []
        wire = Wire(packets, port=179, server_port=40001)
        wire.begin(0, by="server")
        wire.put(0, "server", 0, OPEN_SERVER)
        wire.put(0, "member", 0, OPEN_A + KEEPALIVE)
        _, session, _, config, _ = made(pcap(packets))
        self.assertEqual(session, PLAIN[:5])
        self.assertIn('listen = "192.0.2.1:179"', config)

    def test_other_ports(self):
        packets = []
        for member, port in ((A, 17901), (A, 17902)):
            wire = Wire(packets, member=member, server_port=port)
            wire.begin(0)
            wire.put(0, "server", 0, OPEN_SERVER)
            wire.put(0, "member", 0, OPEN_A)
        _, _, _, config, _ = made(pcap(packets), words=("--server", f"{SERVER}:17901", "--server", f"{SERVER}:17902"))
        found = [line for line in config if line.startswith(("name", "listen"))]
        self.assertEqual(found, [f'name = "{NAME_A}"', 'listen = "192.0.2.1:17901"', f'name = "{NAME_A}-2"', 'listen = "192.0.2.1:17902"'])

    def test_of_two_connections_one_is_closed(self):
        packets, replaced = plain(), []
        wire = Wire(replaced, port=179, server_port=40001)
        wire.begin(0.5, by="server")
        wire.put(0.5, "member", 0, OPEN_A)
        wire.put(0.6, "server", 0, OPEN_SERVER + bytes.fromhex("ff" * 16 + "0015030607"))
        wire.put(0.6, "server", 37 + 21, flags=FIN | ACK)
        _, session, sent, _, said = made(pcap(sorted(packets + replaced, key=lambda it: it[0])))
        self.assertEqual(session, PLAIN)
        self.assertIn("(RFC 4271, 6.8): 1", said)

    def test_a_connection_without_an_end_is_lost_where_the_next_begins(self):
        packets = plain()[:-1]
        wire = Wire(packets, port=40001)
        wire.begin(9)
        wire.put(9, "member", 0, OPEN_A + KEEPALIVE)
        _, session, _, _, said = made(pcap(packets))
        self.assertEqual(session[9:12], ["moment 8", f"lost {NAME_A}", f"open {NAME_A}"])
        self.assertIn("packet 10: as64496-192-0-2-11 has another connection", said)

    def test_the_same_ports_again(self):
        packets = plain()
        wire = Wire(packets, first=70000, server_first=80000)
        wire.begin(9)
        wire.put(9, "member", 0, OPEN_A + KEEPALIVE)
        _, session, *_ = made(pcap(packets))
        self.assertEqual(session, [*PLAIN, "moment 8", *PLAIN[1:5]])

    def test_a_connection_that_began_before(self):
        packets = []
        Wire(packets, member=B).put(0, "member", 0, UPDATE)
        _, session, _, _, said = made(pcap(packets + plain()))
        self.assertEqual(session, PLAIN)
        self.assertIn("the connection between 192.0.2.12:40000 and 192.0.2.1:179 began before the capture", said)
        self.assertIn("octets of connections that began before the capture: 47", said)

    def test_a_server_of_two_octets(self):
        short = bytes.fromhex("ff" * 16 + "001d0104fbf4005ac000020100")
        packets = []
        wire = Wire(packets)
        wire.begin(0)
        wire.put(0, "server", 0, short)
        wire.put(0, "member", 0, OPEN_A[:10])
        wire.put(0, "member", 10, OPEN_A[10:])
        wire.put(1, "member", 37, KEEPALIVE)
        _, session, _, config, said = made(pcap(packets))
        # The same OPEN without its optional parameters: 8 octets fewer, and a length of 0 of these.
        expected = OPEN_A[:16] + b"\0\x1d" + OPEN_A[18:28] + b"\0"
        self.assertEqual(octets_of(session), expected + KEEPALIVE)
        self.assertIn("without four-octet AS numbers", said)

    def test_a_server_of_two_octets_and_a_member_of_four(self):
        """The member is AS_TRANS to the server (RFC 6793, 4.2.2)."""
        short = bytes.fromhex("ff" * 16 + "001d0104fbf4005ac000020100")
        packets = []
        wire = Wire(packets)
        wire.begin(0)
        wire.put(0, "server", 0, short)
        wire.put(0, "member", 0, OPEN_A[:20] + b"\x5b\xa0" + OPEN_A[22:33] + b"\xfa\x56\xea\0" + KEEPALIVE)
        _, session, _, config, _ = made(pcap(packets))
        self.assertIn("as = 23456", config)
        self.assertEqual(octets_of(session, "as23456-192-0-2-11"), OPEN_A[:16] + b"\0\x1d\x01\x04\x5b\xa0" + OPEN_A[22:28] + b"\0" + KEEPALIVE)

    def test_path_identifiers(self):
        def offered(message, way):
            parameter = b"\2\x06\x45\4\0\1\1" + bytes([way])
            octets = bytearray(message + parameter)
            octets[16:18], octets[28] = struct.pack(">H", len(octets)), octets[28] + len(parameter)
            return bytes(octets)

        for way, count in ((3, 1), (1, 0)):
            packets = []
            wire = Wire(packets)
            wire.begin(0)
            wire.put(0, "server", 0, offered(OPEN_SERVER, 3))
            wire.put(0, "member", 0, offered(OPEN_A, way) + KEEPALIVE)
            *_, said = made(pcap(packets))
            self.assertEqual("path identifiers (RFC 7911): 1" in said, bool(count))
