"""Tests of MRT dumps (RFC 6396)."""
import struct
import unittest

from captures.packets import (
    A, B, KEEPALIVE, made, NAME_A, NAME_B, octets_of, OPEN_A, OPEN_SERVER, pcap, PLAIN, plain, recorded, said_by,
    SERVER, START, UPDATE,
)
from captures.dumps import (
    ATTRIBUTES, bgp4mp, change, heading, MADE_UP, MADE_UP_SHORT, message, peers, PREFIX, record, routes,
)


class Dumps(unittest.TestCase):
    """MRT (RFC 6396)."""

    def test_messages_with_their_open(self):
        dump = b"".join(bgp4mp(message(it)) for it in (OPEN_A, KEEPALIVE)) + bgp4mp(message(UPDATE), time=START + 2)
        status, session, _, config, said = made(dump + change(6, 1, time=START + 3))
        self.assertEqual((status, session), (0, PLAIN))
        self.assertEqual(config[:3], ["as = 64500", 'identifier = "192.0.2.1"', "hold = 0"])
        self.assertIn("BGP Identifier was made up", said)

    def test_microseconds(self):
        et = lambda it, micro, time=START: record(17, 4, struct.pack(">I", micro) + message(it), time)
        dump = et(OPEN_A, 900000) + et(KEEPALIVE, 950000) + et(UPDATE, 100000, START + 3)
        self.assertEqual(made(dump)[1], PLAIN[:-3])

    def test_what_the_server_sent(self):
        turned = dict(peer=SERVER, local=A, peer_number=64500, local_number=64496)
        dump = bgp4mp(message(OPEN_SERVER, **turned)) + bgp4mp(message(OPEN_A)) + bgp4mp(message(KEEPALIVE), subtype=7)
        _, session, sent, config, _ = made(dump)
        self.assertEqual(said_by(sent), [f"sent {NAME_A} {OPEN_SERVER.hex()}", f"sent {NAME_A} {KEEPALIVE.hex()}"])
        self.assertEqual((octets_of(session), config[2]), (OPEN_A, "hold = 90"))

    def test_an_open_is_made_up(self):
        _, session, _, _, said = made(bgp4mp(message(UPDATE)))
        self.assertEqual(octets_of(session), MADE_UP + KEEPALIVE + UPDATE)
        self.assertIn("file0: record 1: as64496-192-0-2-11: an OPEN was made up: AS 64496, identifier 192.0.2.11, no Hold Time, four-octet", said)
        self.assertIn("KEEPALIVEs that are not in a dump, made up: 1", said)

    def test_two_octets(self):
        _, session, _, _, said = made(bgp4mp(message(UPDATE, width=2), subtype=1))
        self.assertEqual(octets_of(session), MADE_UP_SHORT + KEEPALIVE + UPDATE)

    def test_an_open_that_offers_more_than_the_messages_have(self):
        dump = b"".join(bgp4mp(message(it, width=2), subtype=1) for it in (OPEN_A, KEEPALIVE, UPDATE))
        _, session, _, _, said = made(dump)
        self.assertEqual(octets_of(session), OPEN_A[:16] + b"\0\x1d" + OPEN_A[18:28] + b"\0" + KEEPALIVE + UPDATE)
        self.assertIn("its OPEN says four-octet AS numbers", said)

    def test_changes_of_state(self):
        dump = change(5, 6) + bgp4mp(message(UPDATE)) + change(6, 1, time=START + 1) + change(5, 6, width=2, time=START + 2)
        _, session, *_ = made(dump)
        self.assertEqual(octets_of(session), MADE_UP + KEEPALIVE + UPDATE + MADE_UP_SHORT + KEEPALIVE)
        self.assertEqual([line for line in session if line.startswith(("open", "lost"))], [f"open {NAME_A}", f"lost {NAME_A}", f"open {NAME_A}"])

    def test_changes_as_bird_dumps_them(self):
        """The KEEPALIVE is of two octets, the loss without addresses."""
        gone = heading(peer="0.0.0.0", local="0.0.0.0") + struct.pack(">HH", 6, 1)
        dump = change(1, 4) + bgp4mp(message(OPEN_A, width=2), subtype=1) + change(4, 5) + bgp4mp(message(KEEPALIVE, width=2), subtype=1)
        dump += change(5, 6) + bgp4mp(message(UPDATE), time=START + 2) + bgp4mp(gone, subtype=5, time=START + 3)
        self.assertEqual(made(dump)[1], PLAIN)

    def test_changes_as_openbgpd_dumps_them(self):
        """The ends are turned, and the AS number is 0 before the OPEN."""
        turned = lambda old, new, number=64496: heading(peer=SERVER, local=A, peer_number=64500, local_number=number) + struct.pack(">HH", old, new)
        dump = bgp4mp(turned(3, 4, 0), subtype=5) + bgp4mp(message(OPEN_A, width=2, peer_number=0), subtype=1)
        dump += bgp4mp(turned(4, 5), subtype=5) + bgp4mp(message(KEEPALIVE)) + bgp4mp(turned(5, 6), subtype=5)
        dump += bgp4mp(message(UPDATE), time=START + 2) + bgp4mp(turned(6, 1), subtype=5, time=START + 3)
        self.assertEqual(made(dump)[1], PLAIN)

    def test_changes_as_frr_dumps_them(self):
        """States 7 and 8 beside those of RFC 4271, and changes of the other connection."""
        dump = bgp4mp(message(OPEN_A, width=2), subtype=1) + bgp4mp(message(KEEPALIVE)) + change(5, 6) + change(1, 8) + change(4, 1)
        dump += bgp4mp(message(UPDATE), time=START + 2) + change(6, 7, time=START + 3) + change(7, 1, time=START + 3)
        self.assertEqual(made(dump)[1], PLAIN)

    def test_a_session_that_turns_out_wider(self):
        _, session, _, _, said = made(change(5, 6, width=2) + bgp4mp(message(UPDATE)))
        self.assertEqual(octets_of(session), MADE_UP_SHORT + KEEPALIVE + MADE_UP + KEEPALIVE + UPDATE)
        self.assertIn("four octets wide from here on", said)

    def test_a_table(self):
        second = b"\x18\xcb\0\x71"
        dump = peers((2, A, 64496), (0, B, 64497), (1, None, 64498), (2, "0.0.0.0", 5))
        dump += routes(PREFIX, (0, ATTRIBUTES), (2, ATTRIBUTES)) + routes(second, (0, ATTRIBUTES), (9, ATTRIBUTES)) + routes(second, (1, ATTRIBUTES))
        status, session, _, config, said = made(dump, words=("--server", SERVER, "--as", "64500"))
        # The UPDATE of the recorded session with one more prefix: its length is 4 more.
        both = UPDATE[:16] + struct.pack(">H", len(UPDATE) + 4) + UPDATE[18:] + second
        self.assertEqual((status, octets_of(session)), (0, MADE_UP + KEEPALIVE + both))
        self.assertTrue(octets_of(session, NAME_B).endswith(KEEPALIVE + UPDATE[:43] + second))
        self.assertEqual(config[:3], ["as = 64500", 'identifier = "198.51.100.7"', "hold = 0"])
        self.assertIn("peers of a table that have no AS number or no IPv4 address: 2", said)
        self.assertIn("whose peer is no member, or whose session has ended since: 2", said)

    def test_other_attributes_and_full_updates(self):
        other = ATTRIBUTES[:3] + b"\2" + ATTRIBUTES[4:]
        many = [b"\x18" + struct.pack(">I", at << 8)[:3] for at in range(1, 1100)]
        dump = peers((2, A, 64496)) + routes(PREFIX, (0, ATTRIBUTES)) + b"".join(routes(it, (0, other)) for it in many)
        _, session, *_ = made(dump, words=("--server", SERVER, "--as", "64500"))
        octets, at, found = octets_of(session)[len(MADE_UP + KEEPALIVE) :], 0, []
        while at < len(octets):
            found.append(octets[at : at + struct.unpack_from(">H", octets, at + 16)[0]])
            at += len(found[-1])
        self.assertEqual((found[0], [it[23:43] for it in found[1:]]), (UPDATE, [other, other]))
        self.assertEqual((b"".join(it[43:] for it in found[1:]), max(map(len, found)) <= 4096), (b"".join(many), True))

    def test_routes_of_a_session_that_ended(self):
        dump = peers((2, A, 64496)) + routes(PREFIX, (0, ATTRIBUTES)) + change(6, 1) + routes(PREFIX, (0, ATTRIBUTES))
        _, session, _, _, said = made(dump)
        self.assertEqual(octets_of(session), MADE_UP + KEEPALIVE + UPDATE)
        self.assertIn("whose session has ended since: 1", said)

    def test_too_many_members(self):
        dump = peers(*((2, f"10.0.{at // 256}.{at % 256}", 64496) for at in range(1, 514)))
        self.assertIn("there are 513 members; a configuration takes 512", made(dump, words=("--server", SERVER, "--as", "64500"))[-1])

    def test_flags_in_tables(self):
        wrong = ATTRIBUTES[:-7] + b"\0" + ATTRIBUTES[-6:]
        _, session, _, _, said = made(peers((2, A, 64496)) + routes(PREFIX, (0, wrong)), words=("--server", SERVER, "--as", "64500"))
        self.assertEqual(octets_of(session), MADE_UP + KEEPALIVE + UPDATE)
        self.assertIn("flags of attributes in tables, put right (RFC 4271, 5): 1", said)

    def test_a_table_and_what_came_after_it(self):
        table = peers((2, A, 64496)) + routes(PREFIX, (0, ATTRIBUTES))
        _, session, _, _, said = made(table + bgp4mp(message(KEEPALIVE), time=START + 2), words=("--server", SERVER, "--as", "64500"))
        self.assertEqual(octets_of(session), MADE_UP + KEEPALIVE + UPDATE + KEEPALIVE)
        self.assertEqual(session.count(f"open {NAME_A}"), 1)

    def test_long_attributes(self):
        filler = ATTRIBUTES + b"\xd0\x63" + struct.pack(">H", 4044) + bytes(4044)
        dump = peers((2, A, 64496)) + routes(PREFIX, (0, filler)) + routes(PREFIX, (0, filler + bytes(2)))
        _, session, _, _, said = made(dump, words=("--server", SERVER, "--as", "64500"))
        self.assertEqual(len(octets_of(session)), len(MADE_UP + KEEPALIVE) + 4095)
        self.assertIn("no message of 4,096 octets holds: 1", said)

    def test_what_is_counted(self):
        ipv6 = bgp4mp(struct.pack(">IIHH", 64496, 64500, 0, 2) + bytes(32) + UPDATE)
        dump = ipv6 + bgp4mp(message(UPDATE[:-1])) + record(13, 4, b"") + record(12, 1, b"") + bgp4mp(message(UPDATE, local="192.0.2.77"))
        *_, said = made(dump + bgp4mp(message(UPDATE)))
        for text in ("cut off or not of IPv4: 1", "not one whole message: 1", "type 13, subtype 4: 1", "type 12, subtype 1: 1", "messages of others: 1"):
            self.assertIn(text, said)

    def test_cut_off(self):
        _, session, _, _, said = made(bgp4mp(message(UPDATE)) + bgp4mp(message(UPDATE))[:-3])
        self.assertEqual(octets_of(session), MADE_UP + KEEPALIVE + UPDATE)
        self.assertIn("file0: record 2: the file is cut off here", said)

    def test_a_capture_and_a_dump(self):
        _, session, *_ = made(pcap(plain()), bgp4mp(message(UPDATE, peer=B, peer_number=64497), time=START + 1))
        self.assertEqual([line for line in session if line.startswith("open")], [f"open {NAME_A}", f"open {NAME_B}"])
