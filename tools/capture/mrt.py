"""Members' sessions from MRT (RFC 6396): BGP4MP messages and changes of state, and tables of TABLE_DUMP_V2."""
import collections
import socket
import struct

from . import bgp
from .members import Event
from .notes import Fault

Record = collections.namedtuple("Record", "time place kind subtype body")
# What a record of BGP4MP begins with (RFC 6396, 4.4), and its rest.
Heading = collections.namedtuple("Heading", "peer_number local_number peer local rest")
Ends = collections.namedtuple("Ends", "server server_number address number is_turned rest")

TABLE_DUMP_V2, BGP4MP, BGP4MP_ET = 13, 16, 17
PEER_INDEX_TABLE, RIB_IPV4_UNICAST = 1, 2
STATE_CHANGES, MESSAGES, LOCAL = {0: 2, 5: 4}, {1: 2, 4: 4, 6: 2, 7: 4}, {6, 7}
OPEN_SENT, OPEN_CONFIRM, ESTABLISHED = 4, 5, 6
# All types of RFC 6396, 4: what begins with another is no dump.
KINDS = {11, 12, 13, 16, 17, 32, 33, 48, 49}
# Optional and transitive, by type: RFC 4271, 5.1, and RFC 1997.
FLAGS = {1: 0x40, 2: 0x40, 3: 0x40, 4: 0x80, 5: 0x40, 6: 0x40, 7: 0xC0, 8: 0xC0}
# What a message may have (RFC 4271, 4.1) beside its header and the two lengths of an UPDATE.
MOST = 4096 - 23
SECOND = 10**9


def read(source, head):
    """The records of a file whose first four octets were taken (RFC 6396, 2 and 3)."""
    number = 0
    while head:
        number += 1
        place = f"record {number}"
        rest = source.take(8, place)
        if rest is None:
            return
        seconds, kind, subtype, size = struct.unpack(">IHHI", head + rest)
        if number == 1 and kind not in KINDS:
            source.end(None)
            raise Fault(f"{source.name}: neither a capture nor MRT")
        body = source.take(size, place)
        if body is None:
            return
        time = seconds * SECOND
        if kind == BGP4MP_ET and len(body) >= 4:
            time, body = time + struct.unpack_from(">I", body)[0] * 1000, body[4:]
        yield Record(time, f"{source.name}: {place}", kind, subtype, body)
        head = source.take(4, f"record {number + 1}", between=True)


def heading(body, width):
    """What a record of BGP4MP begins with, its AS numbers this wide; or None where it is cut off or not of IPv4."""
    if len(body) < 2 * width + 12:
        return None
    peer, local = (int.from_bytes(body[at : at + width], "big") for at in (0, width))
    rest = body[2 * width + 2 :]
    if rest[:2] != b"\0\1":
        return None
    return Heading(peer, local, socket.inet_ntoa(rest[2:6]), socket.inet_ntoa(rest[6:10]), rest[10:])


class Session:
    """What is known of one member's session: whether it was opened, whether its OPEN and KEEPALIVE were put down, and
    whether the OPEN has four-octet AS numbers."""

    def __init__(self, member):
        self.member, self.opened, self.said, self.beat, self.four = member, False, False, False, None
        # An OPEN that waits until it is known how wide the AS numbers of its session are.
        self.waiting = None
        # Routes of a table that no UPDATE has yet: their attributes and their prefixes.
        self.attributes, self.prefixes = b"", bytearray()


class Sessions:
    """Turns records into events. Where the dump has no OPEN of a session, or no KEEPALIVE, one is made up."""

    def __init__(self, servers, members, said, notes):
        self.servers, self.members, self.said, self.notes = servers, members, said, notes
        self.sessions, self.peers, self.pending = {}, [], {}
        # What the records say of the server; the addresses of servers that were not asked for.
        self.number, self.identifier, self.others = None, None, {}

    def events(self, records):
        """The events of records in the order of time."""
        record = None
        for record in records:
            subtype = record.subtype
            if record.kind == TABLE_DUMP_V2 and subtype == RIB_IPV4_UNICAST:
                yield from self.routes(record)
                continue
            yield from self.flush(record)
            if record.kind == TABLE_DUMP_V2 and subtype == PEER_INDEX_TABLE:
                yield from self.table(record)
            elif record.kind in (BGP4MP, BGP4MP_ET) and subtype in MESSAGES:
                yield from self.message(record, MESSAGES[subtype])
            elif record.kind in (BGP4MP, BGP4MP_ET) and subtype in STATE_CHANGES:
                yield from self.change(record, STATE_CHANGES[subtype])
            else:
                self.notes.passed(f"MRT records of type {record.kind}, subtype {subtype}")
        if record:
            yield from self.flush(record)
            for session in self.sessions.values():
                yield from self.speak(session, record, None)

    def session(self, server, address, number):
        """The session of a member, which is known from here on if it has an AS number; or None."""
        known = self.members.known.get((server, address))
        if not number and not known:
            self.notes.passed("MRT records of members whose AS number is not known yet")
            return None
        member = known or self.members.get(server, address, number)
        if number not in (0, member.number):
            self.notes.passed(f"changes of the AS number of {member.name}, which stays {member.number}")
        return self.sessions.setdefault(member.name, Session(member))

    def put(self, session, record, kind, octets=b""):
        return Event(record.time, kind, session.member.name, octets, record.place)

    def open(self, session, record):
        """The member's connection is there."""
        if not session.opened:
            session.opened = True
            yield self.put(session, record, "open")

    def lose(self, session, record):
        """The member's connection is lost, if it was there."""
        if session.opened:
            yield from self.speak(session, record, None)
            session.opened = False
            yield self.put(session, record, "lost")
            self.sessions[session.member.name] = Session(session.member)

    def speak(self, session, record, four):
        """Puts the OPEN down that waits. Its AS numbers are as wide as those of the messages behind it, if that is known."""
        if session.waiting:
            it, behind = bgp.read_open(session.waiting), session.waiting[next(bgp.ends(session.waiting)) :]
            if it and four is not None and bgp.has(it, bgp.FOUR_OCTETS) != four:
                words = ("two", "four") if four else ("four", "two")
                name = f"{record.place}: {session.member.name}"
                self.notes.say(f"{name}: its OPEN says {words[0]}-octet AS numbers, its UPDATEs have {words[1]}: it is put down as these are")
                it = bgp.in_width(it, four)
                session.waiting = bgp.make_open(it) + behind
            yield self.put(session, record, "octets", session.waiting)
            session.waiting, session.said, session.four = None, True, bool(it and bgp.has(it, bgp.FOUR_OCTETS))

    def come_up(self, session, record, four, beat):
        """Puts down what is missing until the session is up: its connection, OPEN and KEEPALIVE (RFC 4271, 8.2.2)."""
        if session.said and session.four != four and beat:
            width = "four" if four else "two"
            self.notes.say(f"{record.place}: {session.member.name}: its AS numbers are {width} octets wide from here on, so its session begins anew")
            yield from self.lose(session, record)
            session = self.sessions[session.member.name]
        yield from self.open(session, record)
        yield from self.speak(session, record, four)
        member = session.member
        if not session.said:
            session.said, session.four = True, four
            says = f"AS {member.number}, identifier {member.address}, no Hold Time, {'four' if four else 'two'}-octet AS numbers"
            self.notes.say(f"{record.place}: {member.name}: an OPEN was made up: {says}")
            yield self.put(session, record, "octets", bgp.make_open(bgp.made_up(member.number, member.address, four)))
        if beat and not session.beat:
            session.beat = True
            self.notes.passed("KEEPALIVEs that are not in a dump, made up")
            yield self.put(session, record, "octets", bgp.message(bgp.KEEPALIVE))

    def ends(self, record, width):
        """The ends that a record of BGP4MP names, the server's and the member's, and its rest; or None.

        The peer is the member, unless the record was made of what the server sent: OpenBGPD turns the ends of these, and of
        its changes of state.
        """
        it = heading(record.body, width)
        if it is None:
            self.notes.passed("MRT records of BGP4MP that are cut off or not of IPv4")
            return None
        for server in self.servers:
            if it.local == server[0]:
                return Ends(server, it.local_number, it.peer, it.peer_number, False, it.rest)
            if it.peer == server[0]:
                return Ends(server, it.peer_number, it.local, it.local_number, True, it.rest)
        return Ends(None, it.local_number, it.peer, it.peer_number, False, it.rest)

    def message(self, record, width):
        """A message of BGP4MP (RFC 6396, 4.4.2 and 4.4.3), or one that the server sent (4.4.5 and 4.4.6)."""
        ends = self.ends(record, width)
        if ends is None:
            return
        if ends.server is None:
            self.notes.passed("MRT records with messages of others")
            self.others[socket.inet_ntoa(record.body[2 * width + 8 : 2 * width + 12])] = True
            return
        if list(bgp.ends(ends.rest)) != [len(ends.rest)]:
            self.notes.passed("MRT records with a message that is not one whole message")
            return
        self.number = self.number or ends.server_number
        is_sent, it = ends.is_turned or record.subtype in LOCAL, bgp.read_open(ends.rest)
        session = self.session(ends.server, ends.address, ends.number or (it.number if it and not is_sent else 0))
        if is_sent and it:
            self.said.hear(it, record.place)
        if session and is_sent:
            yield self.put(session, record, "sent", ends.rest)
        elif session:
            yield from self.heard(session, record, ends.rest, width == 4)

    def heard(self, session, record, octets, four):
        """A message of the member."""
        kind = octets[18]
        if kind == bgp.NOTIFICATION and not session.opened:
            self.notes.passed("NOTIFICATIONs of members without a session")
        elif kind == bgp.OPEN:
            if session.said or session.waiting:
                yield from self.lose(session, record)
                session = self.sessions[session.member.name]
            yield from self.open(session, record)
            session.waiting = octets
        elif session.waiting and kind in (bgp.KEEPALIVE, bgp.NOTIFICATION) and not four:
            # BIRD dumps these as with two-octet AS numbers before a session with four octets is up.
            session.waiting += octets
            session.beat = session.beat or kind == bgp.KEEPALIVE
        else:
            yield from self.come_up(session, record, four, kind in (bgp.UPDATE, bgp.ROUTE_REFRESH))
            session = self.sessions[session.member.name]
            session.beat = session.beat or kind == bgp.KEEPALIVE
            yield self.put(session, record, "octets", octets)

    def changed(self, ends):
        """The session of a change of state. Where the connection is gone, an address of it may be 0.0.0.0."""
        if ends.server:
            return self.session(ends.server, ends.address, ends.number)
        opened = [it for it in self.sessions.values() if it.opened]
        if ends.address == "0.0.0.0":
            found = [it for it in opened if it.member.number == ends.number]
        else:
            found = [it for it in opened if it.member.address == ends.address]
        if len(found) == 1:
            return found[0]
        self.notes.passed("changes of state that are of no member with a session")
        return None

    def change(self, record, width):
        """A change of state (RFC 6396, 4.4.1 and 4.4.4): into Established, or away from it or from what comes before it.

        A session that is up isn't lost by a change of another connection, which was before Established (RFC 4271, 6.8).
        """
        ends = self.ends(record, width)
        session = self.changed(ends) if ends and len(ends.rest) >= 4 else None
        if session is None:
            return
        old, new = struct.unpack_from(">HH", ends.rest)
        if ends.server:
            self.number = self.number or ends.server_number
        if new == ESTABLISHED:
            yield from self.speak(session, record, None)
            yield from self.come_up(session, record, session.four if session.said else width == 4, True)
        elif session.opened and (old == ESTABLISHED or (old in (OPEN_SENT, OPEN_CONFIRM) and new < OPEN_SENT and not session.beat)):
            yield from self.lose(session, record)

    def table(self, record):
        """The peers of a table (RFC 6396, 4.3.1): each comes up anew, and is a member. The server is the first that was told."""
        self.peers, body, server = [], record.body, self.servers[0]
        if len(body) < 8:
            self.notes.passed("tables of peers that are cut off")
            return
        self.identifier = self.identifier or (socket.inet_ntoa(body[:4]) if any(body[:4]) else None)
        # Behind the identifier and the name of the view.
        at = 6 + struct.unpack_from(">H", body, 4)[0]
        count, at = int.from_bytes(body[at : at + 2], "big"), at + 2
        for _ in range(count):
            kind = body[at] if at < len(body) else None
            size = None if kind is None else 5 + (16 if kind & 1 else 4) + (4 if kind & 2 else 2)
            if size is None or at + size > len(body):
                self.notes.passed("tables of peers that are cut off")
                return
            entry, at = body[at : at + size], at + size
            yield from self.peer(record, server, entry)

    def peer(self, record, server, entry):
        """One peer of a table."""
        number = int.from_bytes(entry[9:] if not entry[0] & 1 else entry[21:], "big")
        address = socket.inet_ntoa(entry[5:9])
        self.peers.append(None)
        if entry[0] & 1 or not number or not any(entry[5:9]):
            self.notes.passed("peers of a table that have no AS number or no IPv4 address")
            return
        session = self.session(server, address, number)
        if session.opened:
            self.notes.say(f"{record.place}: a table begins, so sessions that are up are lost and come up anew")
            yield from self.lose(session, record)
            session = self.sessions[session.member.name]
        yield from self.come_up(session, record, True, True)
        self.peers[-1] = self.sessions[session.member.name]

    def routes(self, record):
        """The routes to one prefix (RFC 6396, 4.3.2 and 4.3.4)."""
        body = record.body
        size = 5 + (body[4] + 7) // 8 if len(body) > 4 else 0
        if not size or size + 2 > len(body):
            self.notes.passed("MRT records of routes that are cut off")
            return
        prefix, count, at = body[4:size], struct.unpack_from(">H", body, size)[0], size + 2
        for _ in range(count):
            length = struct.unpack_from(">H", body, at + 6)[0] if at + 8 <= len(body) else None
            if length is None or at + 8 + length > len(body):
                self.notes.passed("MRT records of routes that are cut off")
                return
            peer, attributes = struct.unpack_from(">H", body, at)[0], self.flagged(body[at + 8 : at + 8 + length])
            at += 8 + length
            session = self.peers[peer] if peer < len(self.peers) else None
            if session is None or not session.opened:
                self.notes.passed("routes of a table whose peer is no member, or whose session has ended since")
            elif len(attributes) + len(prefix) > MOST:
                self.notes.passed("routes of a table whose attributes no message of 4,096 octets holds")
            else:
                yield from self.route(session, record, attributes, prefix)

    def flagged(self, attributes):
        """The same attributes with the flags that their types have to have (RFC 4271, 5): dumps of BIRD have others."""
        at, found = 0, bytearray(attributes)
        while at + 4 <= len(found):
            wanted = FLAGS.get(found[at + 1], found[at] & 0xC0)
            if found[at] & 0xC0 != wanted:
                self.notes.passed("flags of attributes in tables, put right (RFC 4271, 5)")
                found[at] = found[at] & 0x3F | wanted
            at += 4 + int.from_bytes(found[at + 2 : at + 4], "big") if found[at] & 0x10 else 3 + found[at + 2]
        return bytes(found)

    def route(self, session, record, attributes, prefix):
        """A route, into one UPDATE with those before it that have the same attributes."""
        if session.attributes != attributes or len(attributes) + len(session.prefixes) + len(prefix) > MOST:
            yield from self.announce(session, record)
        session.attributes = attributes
        session.prefixes += prefix
        self.pending[session.member.name] = session

    def announce(self, session, record):
        """The UPDATE of the routes that wait (RFC 4271, 4.3)."""
        if session.prefixes:
            field = session.attributes
            octets = bgp.message(bgp.UPDATE, b"\0\0" + struct.pack(">H", len(field)) + field + bytes(session.prefixes))
            session.prefixes = bytearray()
            yield self.put(session, record, "octets", octets)

    def flush(self, record):
        """The UPDATEs of all routes that wait."""
        for session in self.pending.values():
            yield from self.announce(session, record)
        self.pending = {}
