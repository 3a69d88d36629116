"""What octets mean: a session, and the table of the last mentions (docs/DEFINITIONS.md, "The session", "Path attributes" and "What a
client's octets mean"; RFC 4271, 3.2, 4.2, 6 and 8.2.2)."""
import collections
import functools

from .octets import KEEPALIVE, LONGEST, LONGEST_EXTENDED, OPEN, ROUTE_REFRESH, UPDATE, Malformed, messages
from .opens import read_open
from .updates import effect

# Who reads octets, and how: the AS number that an OPEN must have (None for any), whether long messages and ROUTE-REFRESH are taken,
# in how many octets the UPDATEs spell AS numbers (None for as many as the OPEN says), and the sentence that is left out.
Reader = collections.namedtuple("Reader", "number is_extended has_refresh size without", defaults=[None])

# How a client speaks: its BGP Identifier, in how many octets it spells AS numbers, and how long a message to it may be.
Session = collections.namedtuple("Session", "identifier size limit")


class Heard:
    """What octets come to: how their sender speaks, once that is known, and the table that they mean."""

    def __init__(self, reader):
        self.reader, self.session, self.table = reader, None, {}
        # How many messages there were, whether nothing was at fault, and the octets behind the last message.
        self.count, self.is_good, self.rest = 0, True, b""

    @property
    def is_up(self):
        """The client is Established: it was heard twice, and nothing was at fault."""
        return self.is_good and self.count >= 2

    def mention(self, prefix, attributes):
        """A prefix was mentioned: the table has what was said of it last."""
        if self.reader.without == "last-mention" and prefix in self.table:
            return
        self.table.pop(prefix, None)
        if attributes is not None:
            self.table[prefix] = attributes

    def hear_open(self, body):
        """An OPEN, which must be of the AS (RFC 6793, 4.1), and may ask for long messages (RFC 8654, 4)."""
        found = read_open(body)
        limit = LONGEST_EXTENDED if found.is_long and self.reader.is_extended else LONGEST
        self.session = Session(found.identifier, found.size, limit)
        if self.reader.number not in (None, found.number):
            raise Malformed(f"an OPEN of AS {found.number}")

    def hear_update(self, body):
        withdrawn, announced, attributes = effect(body, self.reader.size or (self.session.size if self.session else 4))
        for prefix in withdrawn:
            self.mention(prefix, None)
        for prefix in announced:
            self.mention(prefix, attributes)

    def hear(self, kind, body):
        """One message more: an OPEN, a KEEPALIVE that accepts ours, and then UPDATE, KEEPALIVE and ROUTE-REFRESH."""
        self.count += 1
        if self.count == 1 and kind == OPEN:
            self.hear_open(body)
        elif self.count > 2 and kind == UPDATE:
            self.hear_update(body)
        elif not (self.count >= 2 and kind == KEEPALIVE or self.count > 2 and kind == ROUTE_REFRESH):
            raise Malformed(f"a message of type {kind} in the place {self.count}")


# Most clients say, and are sent, the same in many sessions of a sweep.
@functools.lru_cache(1024)
def heard(octets, reader):
    """What octets mean to a reader. What is at fault ends the session; what is heard behind it counts only for one who reads that of
    clients that aren't Established."""
    found = Heard(reader)
    whole = messages(octets, LONGEST_EXTENDED if reader.is_extended else LONGEST, reader.has_refresh)
    while True:
        try:
            kind, body = next(whole, (None, b""))
            if kind is None:
                found.rest = body
                return found
            found.hear(kind, body)
        except Malformed:
            found.is_good = False
