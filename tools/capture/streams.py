"""TCP connections put together again from their segments (RFC 9293, 3.4, 3.8 and 3.10)."""
import collections
import heapq

FIN, SYN, RST, ACK = 1, 2, 4, 16
# The greatest window there is (RFC 7323, 2.3): what lies further ahead belongs to no such connection.
WINDOW = 1 << 30

# Where in the capture something happened: the segment's place in the order of time, its time, and the words for it.
Moment = collections.namedtuple("Moment", "order time place")


class Stream:
    """The octets that one side sent: `octets` up to the first gap, and by `marks` when how many of them had come.

    Of octets that came twice the first stay, as they do with the receiver that has passed them on.
    """

    def __init__(self):
        self.first, self.octets, self.marks = None, bytearray(), []
        # What waits behind a gap, by its place in the stream; the place of the FIN, and the moment at which all before it
        # had come; the first moment at which the other side acknowledged what is not here yet, and up to where.
        self.waiting, self.fin, self.end, self.unseen, self.acknowledged = [], None, None, None, 0

    def place_of(self, sequence):
        """The place in the stream of a sequence number: the one nearest to what is due, since numbers come again."""
        due = len(self.octets)
        return due + (sequence - self.first - due + (1 << 31)) % (1 << 32) - (1 << 31)

    def take(self, segment, moment, notes):
        """Takes a segment. Its SYN stands before its octets, its FIN behind them."""
        at = self.place_of(segment.sequence + (1 if segment.flags & SYN else 0))
        if at < -1 or at - len(self.octets) > WINDOW:
            notes.passed("TCP segments outside the window")
            return
        if segment.payload:
            heapq.heappush(self.waiting, (at, moment, segment.payload))
        if segment.flags & FIN:
            self.fin = at + len(segment.payload) + segment.missing
            heapq.heappush(self.waiting, (self.fin, moment, None))
        self.join(moment, notes)

    def join(self, moment, notes):
        """Puts what waits behind the octets, as far as it goes without a gap."""
        before = len(self.octets)
        while self.waiting and self.waiting[0][0] <= len(self.octets) and self.end is None:
            at, _, payload = heapq.heappop(self.waiting)
            if payload is None:
                self.end = moment
                continue
            # A probe of an idle connection has one octet of no meaning before what is due (RFC 9293, 3.8.4).
            old = len(self.octets) - at
            known = self.octets[max(at, 0) : at + len(payload)]
            if old and len(payload) > 1 and known != payload[max(-at, 0) : old][: len(known)]:
                notes.say(f"{moment.place}: octets came twice and differ; those that came first are kept")
            self.octets += payload[old:]
        if len(self.octets) > before:
            self.marks.append((moment, len(self.octets)))
        if len(self.octets) >= self.acknowledged:
            self.unseen = None

    def hear_of(self, acknowledged, moment):
        """The other side acknowledges the octets up to a sequence number; a FIN counts as one of them."""
        at = self.place_of(acknowledged)
        at = at if self.fin is None else min(at, self.fin)
        if len(self.octets) < at <= len(self.octets) + WINDOW:
            self.unseen, self.acknowledged = self.unseen or moment, max(self.acknowledged, at)

    def gap(self):
        """The moment from which octets are missing, or None."""
        moments = [moment for _, moment, _ in self.waiting] if self.end is None else []
        return min([*moments, *([self.unseen] if self.unseen else [])], default=None)

    def behind_gap(self):
        """How many octets wait behind the gap."""
        return sum(len(payload) for _, _, payload in self.waiting if payload)


class Connection:
    """A connection between the server and a member. Each side is named by the address that its segments come from."""

    def __init__(self, server, member):
        self.server, self.member = server, member
        self.streams = {server: Stream(), member: Stream()}
        # When it was made; when it ended, and how; how many octets came of a connection whose beginning is not here.
        self.made, self.ended, self.headless = None, None, 0

    def begins_another(self, segment):
        """Whether the segment's SYN is one of another connection between the same ends.

        While this one is there a SYN alone changes nothing (RFC 9293, 3.10.7.4); one that is answered does.
        """
        first = self.streams[segment.source].first
        if not segment.flags & SYN or first in (None, (segment.sequence + 1) % (1 << 32)):
            return False
        return self.made is None or self.ended is not None or bool(segment.flags & ACK)

    def is_headless(self):
        """Whether the connection's beginning is not here: no SYN of the member, though the member says more than RST."""
        return self.streams[self.member].first is None and (self.headless > 0 or self.streams[self.server].first is None)

    def hear(self, segment, moment, notes):
        own, other, begin = self.streams[segment.source], self.streams[segment.target], (segment.sequence + 1) % (1 << 32)
        if segment.flags & SYN and own.first is None:
            own.first = begin
        if segment.flags & SYN and own.first != begin:
            notes.passed("SYNs on connections that are there")
            return
        if segment.flags & SYN and segment.flags & ACK and other.first is None:
            other.first = segment.acknowledged
        if own.first is None:
            self.headless += len(segment.payload)
            return
        if self.ended and self.ended[1] == "RST":
            notes.passed("octets that came behind an RST", len(segment.payload))
            return
        if segment.flags & RST:
            self.reset(own, segment, moment, notes)
            return
        if self.made is None and segment.flags & ACK and not segment.flags & SYN:
            self.made = moment
        own.take(segment, moment, notes)
        if segment.flags & ACK and other.first is not None:
            other.hear_of(segment.acknowledged, moment)
        if own.end and not self.ended:
            self.ended = own.end, "FIN"

    def reset(self, own, segment, moment, notes):
        """An RST is believed from what is due on (RFC 9293, 3.10.7.4), or before the connection is made."""
        if self.made and not 0 <= own.place_of(segment.sequence) - len(own.octets) <= WINDOW:
            notes.passed("RSTs outside the window")
        else:
            # It may stand behind octets that were never sent, so it doesn't tell of any that are missing.
            self.ended = (self.ended or (moment, ""))[0], "RST"


def server_of(segment, servers):
    """The server's address and port as they were told, or None; then whether the segment comes from the server."""
    ways = (segment.target, segment.source, False), (segment.source, segment.target, True)
    for own, _, is_source in ways:
        if own in servers:
            return own, is_source
    # The server may have made the connection itself, to its port on the member's side.
    for own, other, is_source in ways:
        if (own[0], other[1]) in servers:
            return (own[0], other[1]), is_source
    return None, False


def connections(segments, servers, notes):
    """The server's connections, in the order of their first segments, each with the server as it was told; then ends of others."""
    there, found, others, now = {}, [], {}, 0
    for order, segment in enumerate(segments):
        key = frozenset((segment.source, segment.target))
        now = max(now, segment.time)
        told, connection = there.get(key, (None, None))
        if connection is None or connection.begins_another(segment):
            told, is_source = server_of(segment, servers) if told is None else (told, segment.source == connection.server)
            if told is None:
                notes.passed("TCP segments between others")
                if len(others) < 20:
                    others[f"{segment.source[0]}:{segment.source[1]}"] = others[f"{segment.target[0]}:{segment.target[1]}"] = True
                continue
            connection = Connection(*((segment.source, segment.target) if is_source else (segment.target, segment.source)))
            there[key] = told, connection
            found.append(there[key])
        connection.hear(segment, Moment(order, now, segment.place), notes)
    return found, sorted(others)
