#!/usr/bin/env python3
"""Tells the routes of a recorded session in words: which member announced or withdrew what, when, and what each was sent.

    read_session.py [--prefix PREFIX] [--as NUMBER] [FILE]

FILE (standard input, if missing) is a recorded session, what rs_replay wrote of one, or what from_capture.py took down of
another server. A line for each UPDATE and prefix:

    line 23, 2026-11-26T09:00:12Z: b announces 203.0.113.0/25, AS_PATH 64497 64511 64498, NEXT_HOP 192.0.2.12
    line 9: a is sent 203.0.113.0/25, AS_PATH 64497 64511 64498, NEXT_HOP 192.0.2.12

--prefix leaves out what isn't within this prefix, nor has it within; --as what hasn't this AS number in AS_PATH, withdrawals too.
Only IPv4 routes in an UPDATE's own fields are told. Where a time of day stands in a comment (`# 2026-11-26T09:00:00Z`, as
rs_served --record writes it), each line has the time that its moment makes of that, else the moment.

AS numbers have four octets where the member's OPEN says so (RFC 6793); in what was sent, where no OPEN of a member stands, the
width in which the path's segments fill it. Octets that are no messages, and UPDATEs that can't be read, are told and
passed over, the former up to the next `open`. The status is 0, or 2 for a faulty command line or a line that can't be read.
"""
import argparse
import collections
import datetime
import ipaddress
import socket
import struct
import sys

from capture import bgp
from peers.speaker import prefixes

AS_PATH, NEXT_HOP, MED, COMMUNITIES, LARGE_COMMUNITIES = 2, 3, 4, 8, 32
AS_SET = 1
DAY = "%Y-%m-%dT%H:%M:%SZ"

Attributes = collections.namedtuple("Attributes", "path text")


def segments(value, width):
    """The segments of an AS_PATH (RFC 4271, 4.3), each its kind and its AS numbers, or None where they don't fill it."""
    at, found = 0, []
    while at + 2 <= len(value):
        kind, count = value[at], value[at + 1]
        end = at + 2 + count * width
        if end > len(value) or kind not in (1, 2, 3, 4) or not count:
            return None
        found.append((kind, [int.from_bytes(value[it : it + width], "big") for it in range(at + 2, end, width)]))
        at = end
    return found if at == len(value) else None


def path_of(value, four):
    """The segments of an AS_PATH whose numbers have four octets, two, or where `four` is None what fits."""
    widths = (4, 2) if four is None else (4,) if four else (2,)
    return next((it for it in (segments(value, width) for width in widths) if it is not None), [])


def spelt(path):
    """An AS_PATH as a text, sets in braces."""
    parts = []
    for kind, numbers in path:
        text = " ".join(map(str, numbers))
        parts.append(f"{{{text}}}" if kind == AS_SET else text)
    return " ".join(parts)


def values(field):
    """The path attributes of a field, each its type and its value (RFC 4271, 4.3), up to the first that is cut off."""
    at = 0
    while at + 3 <= len(field):
        wide = bool(field[at] & 0x10)
        head = 4 if wide else 3
        size = int.from_bytes(field[at + 2 : at + head], "big")
        if at + head + size > len(field):
            return
        yield field[at + 1], field[at + head : at + head + size]
        at += head + size


def read(field, four):
    """The AS numbers of the path in a field of path attributes, and the attributes as a text."""
    found = dict(values(field))
    path = path_of(found.get(AS_PATH, b""), four)
    parts = [f"AS_PATH {spelt(path)}"]
    if len(found.get(NEXT_HOP, b"")) == 4:
        parts.append(f"NEXT_HOP {socket.inet_ntoa(found[NEXT_HOP])}")
    if len(found.get(MED, b"")) == 4:
        parts.append(f"MULTI_EXIT_DISC {int.from_bytes(found[MED], 'big')}")
    for kind, form, name in ((COMMUNITIES, ">HH", "COMMUNITIES"), (LARGE_COMMUNITIES, ">III", "LARGE_COMMUNITIES")):
        value = found.get(kind, b"")
        if value and len(value) % struct.calcsize(form) == 0:
            parts.append(f"{name} {' '.join(':'.join(map(str, it)) for it in struct.iter_unpack(form, value))}")
    return Attributes({it for _, numbers in path for it in numbers}, ", ".join(parts))


def networks(field):
    """The prefixes of a field as networks; ValueError where it spells none (RFC 4271, 4.3)."""
    found = []
    for prefix in prefixes(field):
        if len(prefix) != 1 + (prefix[0] + 7) // 8:
            raise ValueError("a prefix is cut off")
        found.append(ipaddress.ip_network((prefix[1:5].ljust(4, b"\0"), prefix[0]), strict=False))
    return found


class Stream:
    """What is said in one direction of a connection: its octets that are no whole message yet, and the width of AS numbers."""

    def __init__(self, four):
        self.octets, self.four, self.is_broken = b"", four, False

    def messages(self, octets):
        """The messages that are whole with these octets."""
        self.octets += octets
        at = 0
        for end in bgp.ends(self.octets):
            yield self.octets[at:end]
            at = end
        self.octets = self.octets[at:]
        self.is_broken = len(self.octets) >= 16 and self.octets[:16] != bgp.MARKER


class Clock:
    """The time of the line that was read: a moment, and the time of day that a comment gave of one."""

    def __init__(self):
        self.moment, self.day, self.at, self.is_new = None, None, None, False

    def comment(self, text):
        """A comment: a time of day is that of the line `moment` that follows, else of the last one."""
        try:
            self.day = datetime.datetime.strptime(text, DAY)
        except ValueError:
            return
        self.at, self.is_new = self.moment, True

    def pass_to(self, moment):
        if self.is_new:
            self.at = moment
        self.moment = moment

    def text(self):
        if self.day is None:
            return "" if self.moment is None else f", moment {self.moment}"
        passed = 0 if None in (self.moment, self.at) else self.moment - self.at
        return f", {(self.day + datetime.timedelta(seconds=passed)).strftime(DAY)}"


class Reader:
    """Reads lines, and tells what the options ask for."""

    def __init__(self, prefix, number, tell):
        self.prefix, self.number, self.tell = prefix, number, tell
        self.clock, self.streams, self.place = Clock(), {}, 0

    def line(self, text):
        self.place += 1
        words = text.split(" ")
        if text.startswith("#"):
            self.clock.comment(text[1:].strip())
            return
        if words[0] == "moment" and len(words) == 2:
            self.clock.pass_to(int(words[1]))
        elif words[0] == "open" and len(words) == 2:
            self.streams.pop(("octets", words[1]), None)
            self.streams.pop(("sent", words[1]), None)
        elif words[0] in ("octets", "sent") and len(words) == 3:
            self.hear(words[0], words[1], bytes.fromhex(words[2]))
        self.clock.is_new = False

    def hear(self, word, name, octets):
        """Octets that a member sent, or that it was sent."""
        stream = self.streams.get((word, name))
        if word == "sent" and octets[18:19] == bytes([bgp.OPEN]):
            stream = None
        if stream is None:
            stream = self.streams[word, name] = Stream(None)
        if stream.is_broken:
            return
        for message in stream.messages(octets):
            if message[18] == bgp.OPEN and word == "octets":
                said = bgp.read_open(message)
                stream.four = said is not None and bgp.has(said, bgp.FOUR_OCTETS)
            elif message[18] == bgp.UPDATE:
                try:
                    self.update(word, name, message[19:], stream.four)
                except ValueError:
                    self.tell(f"line {self.place}{self.clock.text()}: an UPDATE of {name} can't be read")
        if stream.is_broken:
            self.tell(f"line {self.place}{self.clock.text()}: the octets of {name} are no messages")

    def update(self, word, name, body, four):
        """Tells an UPDATE; ValueError where it is none."""
        gone = int.from_bytes(body[:2], "big")
        size = int.from_bytes(body[2 + gone : 4 + gone], "big")
        if 4 + gone + size > len(body):
            raise ValueError("the lengths don't fit")
        says, unsays = ("is sent", "is sent the withdrawal of") if word == "sent" else ("announces", "withdraws")
        withdrawn, nlri = networks(body[2 : 2 + gone]), networks(body[4 + gone + size :])
        if self.number is None:
            for prefix in withdrawn:
                self.route(name, unsays, prefix, "")
        if not nlri:
            return
        attributes = read(body[4 + gone : 4 + gone + size], four)
        if self.number is None or self.number in attributes.path:
            for prefix in nlri:
                self.route(name, says, prefix, f", {attributes.text}")

    def route(self, name, verb, prefix, more):
        if self.prefix is None or prefix.overlaps(self.prefix):
            self.tell(f"line {self.place}{self.clock.text()}: {name} {verb} {prefix}{more}")


def read_all(lines, tell, prefix=None, number=None):
    """Tells the routes of these lines, and answers the status to end with."""
    reader = Reader(prefix, number, tell)
    for line in lines:
        try:
            reader.line(line.rstrip("\n"))
        except ValueError as fault:
            print(f"line {reader.place}: {fault}", file=sys.stderr)
            return 2
    return 0


def main(words):
    parser = argparse.ArgumentParser(description=__doc__.split("\n")[0])
    parser.add_argument("--prefix", type=ipaddress.IPv4Network, help="only what overlaps this prefix")
    parser.add_argument("--as", dest="number", type=int, help="only routes with this AS number in AS_PATH")
    parser.add_argument("file", nargs="?", type=argparse.FileType("r"), default=sys.stdin)
    asked = parser.parse_args(words)
    return read_all(asked.file, print, asked.prefix, asked.number)


if __name__ == "__main__":
    try:
        sys.exit(main(sys.argv[1:]))
    except BrokenPipeError:
        sys.stderr.close()
