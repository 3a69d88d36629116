"""The members of an exchange, and what the server says of itself."""
import collections

from . import bgp

# What is put down: a connection made or lost, octets that a member or the server sent. `octets` is empty for the first two.
Event = collections.namedtuple("Event", "time kind name octets place")
Server = collections.namedtuple("Server", "number identifier hold extended refresh multiprotocol")
Member = collections.namedtuple("Member", "name number server address")

# The most clients that a configuration takes.
MOST = 512


class Members:
    """The members: each is known by the server's address and port, and by its own address."""

    def __init__(self):
        self.known, self.names = {}, set()

    def get(self, server, address, number):
        """The member, which gets its name from its AS number and address when it is first seen."""
        if (server, address) not in self.known:
            plain = name = f"as{number}-{address.replace('.', '-')}"
            while name in self.names:
                name = f"{plain}-{sum(it.startswith(plain) for it in self.names) + 1}"
            self.names.add(name)
            self.known[server, address] = Member(name, number, server, address)
        return self.known[server, address]


def server_said(it):
    """What an OPEN of the server says that a configuration has a key for."""
    return Server(
        it.number, it.identifier, it.hold, bgp.has(it, bgp.EXTENDED), bgp.has(it, bgp.REFRESH), bgp.has_family(it)
    )


class Said:
    """What the server says of itself in its OPENs: the first is taken, and where another differs it is said."""

    def __init__(self, notes):
        self.notes, self.server = notes, None

    def hear(self, it, place):
        """An OPEN of the server."""
        said = server_said(it)
        self.server = self.server or said
        for key in Server._fields:
            first, other = getattr(self.server, key), getattr(said, key)
            if first != other:
                self.notes.say(f"{place}: the server's OPEN has {key} {other}; the configuration has {first}, as its first OPEN had")
