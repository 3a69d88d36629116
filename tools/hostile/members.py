"""Members of an exchange on 127.77.0.0/16: who they are, what they announce, and what becomes of their sessions."""
import contextlib
import random
import selectors
import socket
import struct
import time

from peers.speaker import IPV4_UNICAST, MARKER, NOTIFICATION, Speaker, attributes, prefixes, update

REFRESH = b"\2\0"


def source(at):
    """The address of the member with this place among the clients."""
    return f"127.77.{1 + at // 250}.{at % 250 + 1}"


def number(at):
    """Its AS number: every fifth has one of four octets."""
    return 65600 + at if at % 5 == 4 else 64512 + at


def next_hop(at):
    return f"10.255.{at // 250}.{at % 250 + 1}"


def slash24(at):
    """The prefix of 24 bits with this number, from 20.0.0.0 on, as an UPDATE spells it."""
    return b"\x18" + struct.pack(">I", (20 << 24) + (at << 8))[:3]


def slash24s(first, count):
    return b"".join(slash24(at) for at in range(first, first + count))


def announced(at, first, count, each=3, seed=1):
    """UPDATEs of a member that announce so many prefixes, `each` for one set of attributes; another seed gives other attributes."""
    chance, out = random.Random(1000 * seed + at), []
    for begin in range(first, first + count, each):
        path = [number(at), *(chance.randrange(1, 400_000) for _ in range(chance.randrange(1, 5)))]
        pairs = [(chance.randrange(65_536), chance.randrange(65_536)) for _ in range(chance.randrange(1, 8))]
        out.append(update(field=attributes(path, next_hop(at), None, pairs), nlri=slash24s(begin, min(each, first + count - begin))))
    return b"".join(out)


def withdrawn(first, count):
    """UPDATEs that withdraw so many prefixes."""
    return b"".join(update(withdrawn=slash24s(begin, min(900, first + count - begin))) for begin in range(first, first + count, 900))


class Member(Speaker):
    """A member that keeps nothing of what it is told but how much it was; `ended` says how its session ended."""

    def __init__(self, place, at, hold=90, capabilities=b"", window=None, address=None):
        self.at, self.ended, self.octets, self.tail = at, None, 0, b""
        self.hold, self.window = hold, window
        super().__init__(number(at), address or next_hop(at), place, source(at), IPV4_UNICAST + capabilities)

    def came_up(self):
        """Nothing is to be done then."""

    def told_of(self, gone, field, nlri):
        """What it is told is passed over."""

    def refused(self, body):
        self.ended = f"NOTIFICATION {body[0]}/{body[1]}"

    def pieces(self):
        """What has come, in pieces; whoever sends without end keeps nobody else from being heard."""
        for _ in range(16):
            if not (piece := self.socket.recv(1 << 18)):
                self.ended = self.ended or "closed"
                return
            yield piece

    def read(self):
        """As a Speaker until it is up; then it looks at the end of what comes alone."""
        if not self.is_up:
            return super().read()
        with contextlib.suppress(BlockingIOError):
            for piece in self.pieces():
                self.octets += len(piece)
                self.take(piece)
                self.tail = (self.tail + piece[-64:])[-64:]
        at = self.tail.rfind(MARKER)
        if self.ended == "closed" and 0 <= at <= len(self.tail) - 21 and self.tail[at + 18] == NOTIFICATION:
            self.refused(self.tail[at + 19 :])
        return not self.ended

    def take(self, piece):
        """A piece of what it is told."""

    def speak(self):
        """Writes and reads what can be now; answers whether the session goes on."""
        if self.ended:
            return False
        with contextlib.suppress(ConnectionError):
            self.write()
        try:
            stays = self.read()
        except ConnectionError:
            stays = False
        if not stays:
            self.ended = self.ended or "closed"
        return not self.ended

    def close(self, at_once=False):
        """Closes the connection; at once: what is on its way is thrown away, and the other side told so."""
        if at_once:
            self.socket.setsockopt(socket.SOL_SOCKET, socket.SO_LINGER, struct.pack("ii", 1, 0))
        else:
            with contextlib.suppress(OSError):
                self.socket.shutdown(socket.SHUT_RDWR)
        self.socket.close()
        self.ended = self.ended or "closed by itself"


class Listener(Member):
    """A member that waits for a mark in what it is told."""

    mark, has_heard = None, False

    def take(self, piece):
        self.has_heard = self.has_heard or bool(self.mark and self.mark in self.tail + piece)


class Counting(Member):
    """A member that counts the prefixes that it is told with a mark in their attributes."""

    mark, count = None, 0

    def read(self):
        return Speaker.read(self)

    def told_of(self, gone, field, nlri):
        if self.mark and self.mark in field:
            self.count += sum(1 for _ in prefixes(nlri))


class Table(Member):
    """A member that keeps its table: attributes by prefix."""

    def __init__(self, *words, **more):
        self.routes = {}
        super().__init__(*words, **more)

    def read(self):
        return Speaker.read(self)

    def told_of(self, gone, field, nlri):
        for prefix in prefixes(gone):
            self.routes.pop(prefix, None)
        self.routes.update(dict.fromkeys(prefixes(nlri), field))


def speak(members, seconds, done=lambda: False, reading=True):
    """Lets the members speak for so many seconds, or until it is done; answers whether it is.

    Where they are not to read, they only send.
    """
    until = time.monotonic() + seconds
    with selectors.DefaultSelector() as selector:
        live = {it for it in members if not it.ended}
        for it in live:
            selector.register(it.socket, selectors.EVENT_READ, it)
        while not (held := done()) and time.monotonic() < until:
            for it in live:
                with contextlib.suppress(ConnectionError):
                    it.write()
            wait = min(0.001 if any(it.out for it in live) else 0.02, max(0, until - time.monotonic()))
            if not reading or not live:
                time.sleep(wait)
                continue
            for key, _ in selector.select(wait):
                if not key.data.speak():
                    selector.unregister(key.data.socket)
                    live.discard(key.data)
        return held


def come_up(members, seconds=20):
    """Waits until all are up; a session that isn't is an error."""
    speak(members, seconds, lambda: all(it.is_up for it in members))
    if down := [it for it in members if not it.is_up]:
        raise OSError(f"{len(down)} of {len(members)} members did not come up: {down[0].ended or 'no answer'}")
    return members


def lost(members):
    """How the sessions ended of those that have: by how, how many."""
    found = {}
    for it in members:
        if it.ended and it.ended != "closed by itself":
            found[it.ended] = found.get(it.ended, 0) + 1
    return found
