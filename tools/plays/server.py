"""Plays members to a built rs_served over sockets on loopback, and says what went otherwise than it must.

play.py server PROGRAM

Two members: each announces 10,000 routes and must be told the other's.
Two files of a configuration: behind a second file that drops what one of two members sends, the other must be told that its routes
are gone; then the first file is replaced too, and so must the one be.
A silent member: one member announces 100,000 routes, another must be told them, while a third comes up and then reads
nothing; the server's memory must stay below a bound, and the third's session must last.
A server taken out: behind `default = "drop"` in place of its rules two members must be told that all routes are gone, and keep
their sessions.
Many members: of 512 in the configuration 200 connect; each announces a route and must be told those of all others.
A restless member: one member and a stranger connect as fast as they can; the member must rest between its sessions, and on
standard output there may be no more than a line of each kind in a second, and the numbers behind them must count all.
Strangers without end: two members announce 1,000 routes each, while strangers connect to the port of one of them as fast as
they can; each member must be told the other's routes all the same.
No descriptor left: the server may open one connection and no more; it must go on, and the second member must come up once
the first has closed.

In each play a route must be told once and with its sender's attributes, octet for octet; then all members close, and the
server, which was started with --sessions, must end by itself with status 0. All waiting is bounded: 120 seconds a play.
"""
import pathlib
import struct
import tempfile
import time

from peers.members import Member, differs, each_played, ends, free_ports, replace, routes, serving, speak

from . import connections

SECONDS = 120
# What the server may take in the play with a silent member, in KiB.
MOST_MEMORY = 262_144


def memory(server):
    """What a process takes, in KiB."""
    for line in pathlib.Path(f"/proc/{server.pid}/status").read_text().splitlines():
        if line.startswith("VmRSS:"):
            return int(line.split()[1])
    return 0


def pair():
    """Two clients, each with a port of its own."""
    ports = free_ports(2)
    return [("alpha", 64496, ports[0], "127.0.0.1"), ("beta", 64497, ports[1], "127.0.0.1")]


def members_of(clients, count):
    """A member for each client, with so many routes."""
    return [
        Member(name, number, f"192.0.2.{11 + at}", ("127.0.0.1", port), routes(10 + at, count))
        for at, (name, number, port, _) in enumerate(clients)
    ]


def two_members(program, until):
    """Two members of 10,000 routes each."""
    clients = pair()
    with serving(program, clients, 2) as server:
        members = members_of(clients, 10_000)
        return differs(server, members, members, until) or ends(server, members, until)


def a_server_taken_out(program, until):
    """Two members, and a file with `default = "drop"` in place of the server's."""
    clients = pair()
    with serving(program, clients, 2, "--reload", "1") as server:
        members = members_of(clients, 1_000)
        if wrong := differs(server, members, members, until):
            return wrong
        for it in members:
            it.may_lose = True
        replace(server, 'default = "drop"\n')
        wrong = speak(members, until, lambda: not any(it.told for it in members))
        still = time.monotonic() + 2
        return wrong or speak(members, until, lambda: time.monotonic() > still) or ends(server, members, until)


def two_files(program, until):
    """Two members, and two files of which first the second is replaced and then the first."""
    clients = pair()
    with tempfile.TemporaryDirectory(prefix="rules-") as room:
        rules = pathlib.Path(room, "rules.toml")
        rules.write_text("# no rules yet")
        with serving(program, clients, 2, "--reload", "1", "--config", rules) as server:
            alpha, beta = members = members_of(clients, 1_000)
            if wrong := differs(server, members, members, until):
                return wrong
            for it in members:
                it.may_lose = True
            beside = rules.with_name("new")
            beside.write_text('[[client.import]]\naction = "drop"')
            beside.rename(rules)
            if wrong := speak(members, until, lambda: not alpha.told):
                return wrong
            if len(beta.told) != 1_000:
                return f"beta has {len(beta.told)} of alpha's routes"
            replace(server, 'default = "drop"\n')
            return speak(members, until, lambda: not beta.told) or ends(server, members, until)


def a_silent_member(program, until):
    """One member of 100,000 routes, one that is told them, and one that reads nothing once it is up."""
    ports = free_ports(3)
    clients = [(name, 64496 + at, ports[at], "127.0.0.1") for at, name in enumerate(("alpha", "beta", "gamma"))]
    with serving(program, clients, 3) as server:
        servers = [("127.0.0.1", port) for port in ports]
        gamma = Member("gamma", 64498, "192.0.2.13", servers[2], [])
        beta = Member("beta", 64497, "192.0.2.12", servers[1], [])
        alpha = Member("alpha", 64496, "192.0.2.11", servers[0], routes(10, 65_536) + routes(11, 34_464))
        members = [alpha, beta, gamma]
        wrong = differs(server, members, [beta], until)
        taken = memory(server)
        if not wrong and not gamma.is_up:
            wrong = "gamma did not come up"
        if not wrong and taken > MOST_MEMORY:
            wrong = f"the server takes {taken} KiB"
        return wrong or ends(server, members, until)


def many_members(program, until):
    """512 members in the configuration, of which 200 connect and announce a route each."""
    port = free_ports(1)[0]
    clients = [(f"member-{at}", 65_000 + at, port, f"127.1.{at // 250}.{1 + at % 250}") for at in range(512)]
    with serving(program, clients, 200) as server:
        members = [
            Member(name, number, f"10.1.{at // 250}.{1 + at % 250}", ("127.0.0.1", port), [struct.pack(">I", (20 << 24) + (at << 8))[:3]], peer)
            for at, (name, number, _, peer) in enumerate(clients[:200])
        ]
        return differs(server, members, members, until) or ends(server, members, until)


PLAYS = (
    ("two members of 10,000 routes each", two_members),
    ("a server that is taken out by its rules", a_server_taken_out),
    ("two files of which the second is replaced and then the first", two_files),
    ("a member of 100,000 routes beside one that reads nothing", a_silent_member),
    ("512 members, of which 200 are connected", many_members),
    *connections.PLAYS,
)


def play_members(program):
    """Plays all: what was tried, and what is wrong or None."""
    return each_played(program, PLAYS, SECONDS)


def by_words(words):
    """The results, by the words of a command behind the play's name; None where these are others."""
    if words:
        return play_members(words)
    return None
