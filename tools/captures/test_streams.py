"""Tests of TCP streams that are put together again."""
import random
import unittest

from captures.packets import (
    ACK, FIN, KEEPALIVE, made, NAME_A, octets_of, OPEN_A, OPEN_SERVER, pcap, PLAIN, plain, ROOM_A, RST, said_by, SYN,
    UPDATE, Wire,
)


class Streams(unittest.TestCase):
    """TCP put together again."""

    def streamed(self, pieces, more=(), **ends):
        """What is made of a member's stream of these segments, each a place and octets."""
        packets = []
        wire = Wire(packets, **ends)
        wire.begin(0)
        wire.put(0, "server", 0, OPEN_SERVER)
        for at, octets in pieces:
            wire.put(0, "member", at, octets)
        for words in more:
            wire.put(*words[:4], **dict(words[4:]))
        return made(pcap(packets))

    def test_in_any_order_with_overlaps(self):
        whole = OPEN_A + KEEPALIVE + UPDATE * 40
        for seed in range(20):
            chance = random.Random(seed)
            cuts = sorted({0, len(whole), *(chance.randrange(len(whole)) for _ in range(30))})
            pieces = [(at, whole[at : end + chance.randrange(50)]) for at, end in zip(cuts, cuts[1:])]
            pieces += chance.sample(pieces, 10)
            chance.shuffle(pieces)
            # The numbers begin anew within the stream.
            status, session, _, _, said = self.streamed(pieces, first=2**32 - 500)
            self.assertEqual((status, octets_of(session)), (0, whole), said)
            self.assertNotIn("missing", said)

    def test_long_streams_are_cut_into_lines(self):
        whole = OPEN_A + KEEPALIVE + UPDATE * 400
        status, session, *_ = self.streamed([(at, whole[at : at + 1400]) for at in range(0, len(whole), 1400)])
        lines = [line for line in session if line.startswith("octets")]
        self.assertEqual((status, octets_of(session)), (0, whole))
        self.assertEqual([len(line.split()[2]) // 2 for line in lines], [4096] * (len(whole) // 4096) + [len(whole) % 4096])
        self.assertTrue(all(len(line) <= 8240 for line in lines))

    def test_a_turn_after_a_million_octets(self):
        whole = OPEN_A + KEEPALIVE + UPDATE * 45000
        _, session, *_ = self.streamed([(at, whole[at : at + 60000]) for at in range(0, len(whole), 60000)])
        self.assertEqual((octets_of(session), session.count("turn")), (whole, 3))

    def test_a_gap_ends_the_octets(self):
        begun = OPEN_A + KEEPALIVE
        pieces = [(0, begun), (len(begun) + 10, UPDATE[10:]), (len(begun) + len(UPDATE), UPDATE)]
        status, session, _, _, said = self.streamed(pieces, [(5, "server", 37, KEEPALIVE)])
        self.assertEqual((status, octets_of(session)), (0, begun))
        self.assertIn(f"lost {NAME_A}", session)
        # Three packets made the connection, the fourth is the server's OPEN, the fifth whole.
        self.assertRegex(said, f"file0: packet 6: octets of {NAME_A} are missing from here on")
        self.assertIn(f"octets of members behind a gap: {2 * len(UPDATE) - 10}", said)
        self.assertIn("octets of the server behind a gap of the member's: 19", said)

    def test_octets_that_only_their_acknowledgment_tells_of(self):
        begun = OPEN_A + KEEPALIVE
        status, session, _, _, said = self.streamed([(0, begun)], [(1, "server", 37, b"", ("known", len(begun) + 47))])
        self.assertEqual(octets_of(session), begun)
        self.assertIn(f"file0: packet 6: octets of {NAME_A} are missing", said)
        self.assertIn(f"lost {NAME_A}", session)

    def test_a_gap_of_the_server(self):
        late = [(1, "server", 60, KEEPALIVE), (2, "member", 56, UPDATE)]
        status, session, sent, _, said = self.streamed([(0, OPEN_A + KEEPALIVE)], late)
        self.assertEqual((status, octets_of(session)), (0, OPEN_A + KEEPALIVE + UPDATE))
        self.assertEqual(said_by(sent), [f"sent {NAME_A} {OPEN_SERVER.hex()}"])
        self.assertIn("file0: packet 6: octets of the server to", said)

    def test_octets_that_came_twice_and_differ(self):
        begun = OPEN_A + KEEPALIVE
        status, session, _, _, said = self.streamed([(0, begun), (30, bytes(10)), (55, b"\0")])
        self.assertEqual((status, octets_of(session)), (0, begun))
        self.assertIn("packet 6: octets came twice and differ", said)
        self.assertNotIn("packet 7", said)

    def test_fin_before_what_it_ends(self):
        begun = OPEN_A + KEEPALIVE
        late = [(0, "member", 56 + 47, b"", ("flags", FIN | ACK)), (4, "member", 56, UPDATE)]
        _, session, _, _, said = self.streamed([(0, begun)], late)
        self.assertEqual(octets_of(session), begun + UPDATE)
        self.assertLess(session.index("moment 4"), session.index(f"lost {NAME_A}"))
        self.assertNotIn("missing", said)

    def test_reset(self):
        late = [(1, "member", 3 * 2**30, b"", ("flags", RST)), (2, "member", 56, UPDATE), (3, "server", 37, b"", ("flags", RST))]
        _, session, _, _, said = self.streamed([(0, OPEN_A + KEEPALIVE)], late)
        self.assertEqual(octets_of(session), OPEN_A + KEEPALIVE + UPDATE)
        self.assertEqual(session[-3:], ["moment 3", f"lost {NAME_A}", "turn"])
        self.assertIn("RSTs outside the window: 1", said)

    def test_acknowledgments_before_what_they_acknowledge(self):
        """That of the UPDATE comes first, that of the FIN is one more than the octets."""
        begun = OPEN_A + KEEPALIVE
        late = [(1, "server", 37, b"", ("known", 56 + 47)), (2, "member", 56, UPDATE), (3, "member", 56 + 47, b"", ("flags", FIN | ACK))]
        _, session, _, _, said = self.streamed([(0, begun)], [*late, (3, "server", 37, b"", ("known", 56 + 48))])
        self.assertEqual((octets_of(session), session[-3]), (begun + UPDATE, "moment 3"))
        self.assertNotIn("missing", said)

    def test_an_acknowledged_fin_before_what_it_ends(self):
        late = [(1, "member", 56 + 47, b"", ("flags", FIN | ACK)), (1, "server", 37, b"", ("known", 56 + 48)), (2, "member", 56, UPDATE)]
        _, session, _, _, said = self.streamed([(0, OPEN_A + KEEPALIVE)], late)
        self.assertEqual(octets_of(session), OPEN_A + KEEPALIVE + UPDATE)
        self.assertNotIn("missing", said)

    def test_octets_after_the_servers_end(self):
        late = [(1, "server", 37, b"", ("flags", FIN | ACK)), (2, "member", 56, UPDATE)]
        _, session, _, _, said = self.streamed([(0, OPEN_A + KEEPALIVE)], late)
        self.assertEqual((octets_of(session), session[-3:]), (OPEN_A + KEEPALIVE, ["moment 1", f"lost {NAME_A}", "turn"]))
        self.assertIn("octets of members behind the end of their connection: 47", said)

    def test_a_fin_in_a_segment_that_is_cut_off(self):
        packets = plain()[:-2]
        wire = Wire(packets)
        wire.put(2, "member", 56, UPDATE, flags=FIN | ACK)
        packets[-1] = packets[-1][0], packets[-1][1][:-20]
        _, session, _, _, said = made(pcap(packets))
        self.assertEqual(octets_of(session), OPEN_A + KEEPALIVE + UPDATE[:-20])
        self.assertIn("are missing from here on", said)

    def test_a_turn_before_a_loss_in_the_same_second(self):
        late = [(0, "member", 56, b"", ("flags", FIN | ACK))]
        _, session, *_ = self.streamed([(0, OPEN_A + KEEPALIVE)], late)
        self.assertEqual(session[2:], [PLAIN[2], "turn", ROOM_A, f"lost {NAME_A}", "turn"])

    def test_a_syn_on_a_connection_that_is_there(self):
        """It changes nothing until it is answered."""
        packets = plain()[:-2]
        wire = Wire(packets, first=70000, server_first=80000)
        wire.put(1, "member", -1, flags=SYN, known=-1)
        packets += plain()[-2:-1]
        _, session, _, _, said = made(pcap(packets))
        self.assertEqual(session, PLAIN[:-3])
        self.assertIn("SYNs on connections that are there: 1", said)
        wire.begin(9)
        wire.put(9, "member", 0, OPEN_A + KEEPALIVE)
        self.assertEqual(made(pcap(packets))[1][9:], ["moment 8", f"lost {NAME_A}", *PLAIN[1:5]])

    def test_a_connection_that_is_refused(self):
        packets = plain(time=1)
        wire = Wire(packets, port=50000)
        refused = []
        wire.packets = refused
        wire.put(0, "member", -1, flags=SYN, known=-1)
        wire.put(0, "server", -1, flags=RST | ACK)
        status, session, _, _, said = made(pcap(refused + packets))
        self.assertEqual((status, session), (0, PLAIN))
        self.assertIn("connections that were asked for and not made: 1", said)

    def test_a_segment_cut_off_by_the_capture(self):
        packets = plain()
        time, packet = packets[-2]
        packets[-2] = time, packet[:-20]
        _, session, _, _, said = made(pcap(packets))
        self.assertEqual(octets_of(session), OPEN_A + KEEPALIVE + UPDATE[:-20])
        self.assertIn("packet 8: octets of", said)

    def test_a_length_of_zero_means_all(self):
        packets = plain()
        time, packet = packets[-2]
        packets[-2] = time, packet[:2] + b"\0\0" + packet[4:]
        self.assertEqual(made(pcap(packets))[1], PLAIN)
