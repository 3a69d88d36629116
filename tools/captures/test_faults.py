"""Tests of what is wrong with files, or is left out."""
import gzip
import random
import socket
import struct
import unittest

from captures.packets import A, block, ipv4, made, pcap, pcapng, PLAIN, plain, SERVER, START, UPDATE
from captures.dumps import bgp4mp, dump_of_table, message


class Faults(unittest.TestCase):
    """What can't be read, and where."""

    def test_cut_off(self):
        octets = pcap(plain())
        for size in (len(octets) - 5, len(octets) - 60):
            status, session, _, _, said = made(octets[:size])
            self.assertEqual((status, session), (0, PLAIN[:-3]))
            self.assertIn("file0: packet 8: the file is cut off here", said)

    def test_pcapng_cut_off(self):
        octets = pcapng(plain())
        _, session, _, _, said = made(octets[:-5])
        self.assertEqual(session, PLAIN[:-3])
        self.assertIn("file0: block 12, behind packet 7: the file is cut off here", said)

    def test_lengths_that_nobody_believes(self):
        octets = pcap(plain()) + struct.pack("<IIII", START, 0, 2**31, 2**31)
        self.assertIn("packet 9: a length of 2147483648 octets", made(octets)[-1])
        self.assertIn("a length of -1 octets", made(pcapng(plain()) + struct.pack("<III", 6, 13, 0))[-1])

    def test_packed_and_cut_off(self):
        status, _, _, _, said = made(gzip.compress(pcap(plain() * 50))[:-30])
        self.assertRegex(said, "file0: packet [0-9]+: .*the rest of the file is not read")

    def test_neither(self):
        for octets in (b"", b"\xd4\xc3", b"GIF89a" + bytes(100)):
            status, *_, said = made(octets)
            self.assertEqual(status, 1)
            self.assertIn("file0: neither a capture nor MRT", said)

    def test_no_session(self):
        status, *_, said = made(pcap(plain()), words=("--server", "192.0.2.99"))
        self.assertEqual(status, 1)
        self.assertIn("no session of 192.0.2.99:179 is there; seen were 192.0.2.11:40000, 192.0.2.1:179", said)

    def test_no_open_of_the_server(self):
        packets = [it for it in plain() if it[1][12:16] != socket.inet_aton(SERVER)]
        status, *_, said = made(pcap(packets))
        self.assertEqual(status, 1)
        self.assertIn("tell it by --as", said)
        status, session, _, config, _ = made(pcap(packets), words=("--server", SERVER, "--as", "64500"))
        self.assertEqual((status, session, config[0]), (0, PLAIN, "as = 64500"))

    def test_unknown_links_and_malformed_packets(self):
        self.assertIn("packets on a link of kind 147", made(pcap(plain(), link=147))[-1])
        said = made(pcap([(0, b"\x45"), (0, ipv4(A, SERVER, b"\0\0")), *plain()]))[-1]
        self.assertIn("cut off in their header: 1", said)

    def test_octets_at_random(self):
        """Whatever is there, it ends, and by one of its own words."""
        whole = [pcap(plain()), pcapng(plain()), bgp4mp(message(UPDATE)) * 3, dump_of_table()]
        for seed in range(300):
            chance = random.Random(seed)
            octets = bytearray(chance.choice(whole))
            for _ in range(chance.randrange(1, 8)):
                octets[chance.randrange(len(octets))] = chance.randrange(256)
            self.assertIn(made(bytes(octets))[0], (0, 1))
