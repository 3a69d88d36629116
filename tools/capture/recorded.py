"""Recorded sessions and configurations as text, in the forms of crates/rs_replay/README.md and docs/OPERATING.md."""
import datetime

# The most octets that a line may have, and after how many of them a turn comes within one second.
MOST, TURN = 4096, 1000000
# What the link to a client takes at once: more than is ever due.
ROOM = 1000000000
SECOND = 10**9


class Recorder:
    """Turns events in the order of time into the lines of a recorded session.

    A turn, and room for each client with a connection, come after the octets of one second, before a loss that comes
    after octets, and after each million octets.
    """

    def __init__(self, tell, before=0):
        """`tell` is told of connections and of what the server sent, and behind which line; some lines may stand before."""
        self.tell, self.first, self.second, self.up, self.number = tell, None, None, {}, before
        # The octets of one client that no line has yet; how many came since the last turn; whether a turn is due.
        self.name, self.held, self.since, self.due = None, bytearray(), 0, False

    def lines(self, events):
        """The lines of these events, the last turn included."""
        for line in self.made(events):
            self.number += 1
            yield line

    def made(self, events):
        """The same, not counted. What the server sent comes behind the octets that it had heard, which may have no line yet."""
        does = {"open": self.open, "octets": self.octets, "lost": self.lost}
        for event in events:
            if event.kind != "sent":
                yield from self.time(event)
                yield from does[event.kind](event)
            if event.kind in ("open", "sent"):
                self.tell(event, self.number + -(-len(self.held) // MOST))
        yield from self.turn()

    def time(self, event):
        """The clock comes to the second of the event, counted from the first; it never goes back."""
        if self.first is None:
            self.first = event.time
            yield f"# second 0 is {datetime.datetime.fromtimestamp(event.time // SECOND, datetime.timezone.utc):%Y-%m-%d %H:%M:%S} UTC"
        second = max(0, (event.time - self.first) // SECOND)
        if self.second is None or second > self.second:
            yield from self.turn()
            self.second = second
            yield f"moment {second}"

    def put(self):
        """The octets that no line has yet."""
        for at in range(0, len(self.held), MOST):
            yield f"octets {self.name} {self.held[at : at + MOST].hex()}"
        self.held.clear()

    def turn(self):
        """A turn where one is due, and room for each client that has a connection."""
        yield from self.put()
        if self.due:
            yield "turn"
            for name in self.up:
                yield f"room {name} {ROOM}"
        self.since, self.due = 0, False

    def open(self, event):
        yield from self.put()
        self.up[event.name] = self.due = True
        yield f"# {event.place}"
        yield f"open {event.name}"

    def octets(self, event):
        if self.name != event.name:
            yield from self.put()
        self.name, self.due = event.name, True
        self.held += event.octets
        self.since += len(event.octets)
        if self.since >= TURN:
            yield from self.turn()

    def lost(self, event):
        if self.since:
            yield from self.turn()
        self.up.pop(event.name, None)
        self.due = True
        yield f"# {event.place}"
        yield f"lost {event.name}"


class Sent:
    """Writes what the server sent, for `rs_replay --compare`: behind which line of the recorded session it came, which connections began, and the octets."""

    def __init__(self, write):
        self.write, self.number = write, None

    def tell(self, event, number):
        """A connection began, or octets were sent on it."""
        if number != self.number:
            self.number = number
            self.write(f"after {number}\n")
        if event.kind == "open":
            self.write(f"open {event.name}\n")
        for at in range(0, len(event.octets), MOST):
            self.write(f"sent {event.name} {event.octets[at : at + MOST].hex()}\n")


def configuration(server, members, heading):
    """The configuration with these members, in the order in which they were seen."""
    word = lambda it: "true" if it else "false"
    lines = [f"# {it}" for it in heading]
    lines += [f"as = {server.number}", f'identifier = "{server.identifier}"', f"hold = {server.hold}"]
    lines += [f"{key} = {word(getattr(server, key))}" for key in ("extended", "refresh", "multiprotocol")]
    for it in members:
        listen = f"{it.server[0]}:{it.server[1]}"
        lines += ["", "[[client]]", f'name = "{it.name}"', f"as = {it.number}", f'listen = "{listen}"', f'peer = "{it.address}"']
    return "\n".join(lines) + "\n"
