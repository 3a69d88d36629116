"""What members and the server said on their connections, as events in the order of time."""
import collections
import math

from . import bgp
from .members import Event

# A connection with what was said on it: `reached` holds where the member said more than its OPEN and a NOTIFICATION.
Talk = collections.namedtuple("Talk", "told connection first theirs reached collided")
CEASE_COLLISION = b"\6\7"


def messages(stream):
    """Each whole message of a stream."""
    at = 0
    for end in bgp.ends(stream.octets):
        yield bytes(stream.octets[at:end])
        at = end


def talk_of(told, connection):
    """Reads what was said on a connection."""
    own, theirs = connection.streams[connection.member], connection.streams[connection.server]
    seen, first, answer, collided = set(), None, None, False
    for message in messages(own):
        first = first if seen else bgp.read_open(message)
        seen.add(message[18])
        collided = collided or message[18] == bgp.NOTIFICATION and message[19:21] == CEASE_COLLISION
    for message in messages(theirs):
        answer = answer or bgp.read_open(message)
        collided = collided or message[18] == bgp.NOTIFICATION and message[19:21] == CEASE_COLLISION
    return Talk(told, connection, first, answer, bool(seen - {bgp.OPEN, bgp.NOTIFICATION}), collided)


def span(talk):
    """From when to when a connection was there, as places in the order of time."""
    ended = talk.connection.ended
    return talk.connection.made.order, ended[0].order if ended else math.inf


def overlap(one, other):
    """Whether two connections were there at once."""
    (made, ended), (made_too, ended_too) = span(one), span(other)
    return one is not other and made < ended_too and made_too < ended


def chosen(talks, notes):
    """Of the connections of one member those that a session is made of: of two at once one is closed (RFC 4271, 6.8)."""
    stays = [it for it in talks if not (it.collided or not it.reached) or not any(overlap(it, other) for other in talks)]
    notes.passed("connections that another of the same member replaced (RFC 4271, 6.8)", len(talks) - len(stays))
    return sorted(stays, key=lambda it: it.connection.made.order)


def is_readable(talk, notes):
    """Whether the routes on a connection can be read without knowing of ADD-PATH (RFC 7911, 3)."""
    if talk.first and talk.theirs and bgp.adds_paths(talk.first, (2, 3)) and bgp.adds_paths(talk.theirs, (1, 3)):
        notes.passed("connections on which the member's routes have path identifiers (RFC 7911)")
        return False
    return True


def is_whole(talk, notes):
    """Whether a connection is there from its beginning."""
    connection = talk.connection
    ends = f"{connection.member[0]}:{connection.member[1]} and {connection.server[0]}:{connection.server[1]}"
    if connection.is_headless():
        notes.say(f"the connection between {ends} began before the capture")
        notes.passed("octets of connections that began before the capture", connection.headless)
        return False
    if connection.made is None:
        notes.passed("connections that were asked for and not made")
        return False
    if connection.headless:
        notes.passed("octets that came before the SYN of their side", connection.headless)
    return True


def is_narrowed(talk):
    """Whether the member offers four-octet AS numbers and the server does not, so that neither sends them (RFC 6793, 4.1)."""
    return bool(talk.first and talk.theirs) and bgp.has(talk.first, bgp.FOUR_OCTETS) and not bgp.has(talk.theirs, bgp.FOUR_OCTETS)


def opening(talk, name, notes):
    """The OPEN that stands for the member's, and how many octets it stands for.

    The replay's server always offers four-octet AS numbers. Where the server in the capture did not, the member's UPDATEs
    have two octets for each, so its OPEN must not offer more.
    """
    if not is_narrowed(talk):
        return b"", 0
    notes.say(f"{name}: its OPEN is without four-octet AS numbers here, since the server's OPEN is")
    stream = talk.connection.streams[talk.connection.member]
    return bgp.make_open(bgp.in_width(talk.first, False)), next(bgp.ends(stream.octets))


def pieces(stream, instead, begin):
    """The octets of a stream as they came, the first of them replaced: pairs of a moment and octets."""
    at = 0
    for moment, end in stream.marks:
        piece = bytes(stream.octets[max(at, begin) : end])
        if at < begin <= end:
            piece = instead + piece
        if piece:
            yield moment, piece
        at = end


def sent(stream):
    """What a side sent, message by message at the moment at which the last octet came; then what is no whole message."""
    at, marks = 0, iter(stream.marks)
    moment, here = next(marks, (None, 0))
    for end in bgp.ends(stream.octets):
        while here < end:
            moment, here = next(marks)
        yield moment, bytes(stream.octets[at:end])
        at = end
    if at < len(stream.octets):
        yield stream.marks[-1][0], bytes(stream.octets[at:])


def end_of(talk, name, following, notes):
    """When the connection ends for the session: at its end, at a gap, or where another takes its place; or None."""
    stream, ended = talk.connection.streams[talk.connection.member], talk.connection.ended
    ends = [ended[0]] if ended else []
    if gap := stream.gap():
        notes.say(f"{gap.place}: octets of {name} are missing from here on; its connection counts as lost")
        notes.passed("octets of members behind a gap", stream.behind_gap())
        ends.append(gap)
    last = min(ends, default=None)
    if following and (last is None or following.connection.made < last):
        last = following.connection.made
        notes.say(f"{last.place}: {name} has another connection; the one before it counts as lost")
    return last


def told(talk, name, last, notes):
    """What the server sent on a connection, up to a gap of the server's or of the member's octets."""
    stream = talk.connection.streams[talk.connection.server]
    gap, lost = stream.gap(), talk.connection.streams[talk.connection.member].gap()
    if talk.first and talk.theirs and bgp.adds_paths(talk.first, (1, 3)) and bgp.adds_paths(talk.theirs, (2, 3)):
        notes.say(f"{name}: what the server sent has path identifiers (RFC 7911)")
    if gap:
        notes.say(f"{gap.place}: octets of the server to {name} are missing from here on")
        notes.passed("octets of the server behind a gap", stream.behind_gap())
    for moment, octets in sent(stream):
        if lost and last < moment:
            notes.passed("octets of the server behind a gap of the member's", len(octets))
        else:
            yield moment, "sent", octets


def events_of(talk, name, following, notes):
    """The events of one connection: triples of a moment, a kind and octets."""
    last = end_of(talk, name, following, notes)
    stream = talk.connection.streams[talk.connection.member]
    yield talk.connection.made, "open", b""
    for moment, octets in pieces(stream, *opening(talk, name, notes)):
        if last is None or moment <= last:
            yield moment, "octets", octets
        else:
            notes.passed("octets of members behind the end of their connection", len(octets))
    yield from told(talk, name, last, notes)
    if last:
        yield last, "lost", b""


def number_of(talks):
    """The AS number of a member as the server saw it: that of an OPEN which was accepted, or else of its first; or None."""
    opens = sorted((it for it in talks if it.first and it.first.number), key=lambda it: not it.reached)
    if not opens:
        return None
    number = opens[0].first.number
    return bgp.AS_TRANS if is_narrowed(opens[0]) and number > 65535 else number


def events(connections, members, said, notes):
    """The events of all connections in the order of time. Members are added to those that are known."""
    groups, found = {}, []
    for told_as, connection in connections:
        talk = talk_of(told_as, connection)
        if is_whole(talk, notes) and is_readable(talk, notes):
            groups.setdefault((told_as, connection.member[0]), []).append(talk)
    everything = sorted((it for talks in groups.values() for it in talks), key=span)
    for talk in everything:
        if talk.theirs:
            said.hear(talk.theirs, talk.connection.made.place)
    for (server, address), talks in groups.items():
        number = number_of(talks)
        if number is None:
            notes.passed("connections of members that never sent an OPEN", len(talks))
            continue
        name, kept = members.get(server, address, number).name, chosen(talks, notes)
        for talk, following in zip(kept, [*kept[1:], None]):
            found += ((moment, kind, name, octets) for moment, kind, octets in events_of(talk, name, following, notes))
    found.sort(key=lambda it: it[0].order)
    return [Event(moment.time, kind, name, octets, moment.place) for moment, kind, name, octets in found]
