"""Plays of rs_served about who connects, and how often; `server` says what each is, and plays them."""
import contextlib
import os
import resource
import socket
import threading
import time

from peers.members import Member, differs, ends, free_ports, routes, serving

# After so many sessions a restless member has shown enough.
SESSIONS = 6


def comes_and_goes(server, source):
    """Connects, waits for what the server does, and closes: whether the connection began a session."""
    with socket.create_connection(server, timeout=5, source_address=(source, 0)) as connection, contextlib.suppress(ConnectionResetError):
        return connection.recv(64) != b""
    return False


def counted(lines, words):
    """How many lines of this kind there are, and how often what they say was, by the number behind some of them."""
    kind = [line.removeprefix(words).split() for line in lines if line == words or line.startswith(f"{words} ")]
    return len(kind), sum(int(number[0]) if number else 1 for number in kind)


def a_restless_member(program, until):
    """A member and a stranger that connect and close at once, over and over: few lines, all are counted, and the member rests."""
    port = free_ports(1)[0]
    with serving(program, [("alpha", 64496, port, "127.0.0.1")], SESSIONS) as server:
        start, begun, refused = time.monotonic(), 0, 0
        while begun < SESSIONS and time.monotonic() < until:
            began = comes_and_goes(("127.0.0.1", port), "127.0.0.1")
            begun, refused = begun + began, refused + (not began)
            if begun < SESSIONS:
                comes_and_goes(("127.0.0.1", port), "127.0.0.2")
        took = time.monotonic() - start
        if wrong := ends(server, [], until):
            return wrong
        most = time.monotonic() - start + 2
        lines = server.stdout.read().decode().splitlines()
    # Each but the first three comes after the one before has rested, a second or two.
    if took < SESSIONS - 3:
        return f"{begun} sessions began within {took:.1f} seconds"
    kinds = {words: counted(lines, words) for words in ("begin alpha", "busy alpha", "lost alpha", "close alpha", "stranger", "strangers")}
    for words, (count, _) in kinds.items():
        if count > most:
            return f"{count} lines {words} in {most:.0f} seconds"
    if sum(often for words, (_, often) in kinds.items() if words.endswith("alpha")) != 2 * begun + refused:
        return f"the lines say {kinds}, for {begun} sessions and {refused} refused connections"
    if kinds["stranger"][1] + kinds["strangers"][1] != begun + refused - 1:
        return f"the lines say {kinds}, for {begun + refused - 1} strangers"
    return None


def connects_on(server, source, over):
    """Connects from this address and closes, again and again until it is over."""
    while not over.is_set():
        try:
            socket.create_connection(server, timeout=1, source_address=(source, 0)).close()
        except OSError:
            time.sleep(0.01)


def strangers_without_end(program, until):
    """Two members of 1,000 routes each, while strangers connect to the port of one of them as fast as they can."""
    ports = free_ports(2)
    clients = [("alpha", 64496, ports[0], "127.0.0.1"), ("beta", 64497, ports[1], "127.0.0.1")]
    over = threading.Event()
    with serving(program, clients, 2) as server:
        strangers = [threading.Thread(target=connects_on, args=(("127.0.0.1", ports[0]), f"127.0.0.{2 + at}", over)) for at in range(4)]
        for it in strangers:
            it.start()
        try:
            members = [
                Member(name, number, f"192.0.2.{11 + at}", ("127.0.0.1", port), routes(10 + at, 1000))
                for at, (name, number, port, _) in enumerate(clients)
            ]
            return differs(server, members, members, until) or ends(server, members, until)
        finally:
            over.set()
            for it in strangers:
                it.join()


def hears(members, seconds, until):
    """Lets the members speak, for so many seconds or until all are up."""
    until = min(until, time.monotonic() + seconds)
    while time.monotonic() < until and not all(it.is_up for it in members):
        for it in members:
            it.write()
            it.read()
        time.sleep(0.01)


def no_descriptor_left(program, until):
    """A server that may open one connection and no more: the second member's waits until the first is closed."""
    ports = free_ports(2)
    clients = [("alpha", 64496, ports[0], "127.0.0.1"), ("beta", 64497, ports[1], "127.0.0.1")]
    with serving(program, clients, 2) as server:
        most = len(os.listdir(f"/proc/{server.pid}/fd")) + 1
        resource.prlimit(server.pid, resource.RLIMIT_NOFILE, (most, most))
        alpha = Member("alpha", 64496, "192.0.2.11", ("127.0.0.1", ports[0]), [])
        hears([alpha], 10, until)
        if not alpha.is_up:
            return "alpha did not come up"
        beta = Member("beta", 64497, "192.0.2.12", ("127.0.0.1", ports[1]), [])
        hears([alpha, beta], 3, until)
        if beta.is_up:
            return "beta came up without a descriptor"
        if server.poll() is not None:
            return f"the server ended with status {server.returncode}"
        alpha.socket.close()
        hears([beta], 10, until)
        if not beta.is_up:
            return "beta did not come up once there was a descriptor"
        return ends(server, [beta], until)


PLAYS = (
    ("a member and a stranger that come and go without end", a_restless_member),
    ("two members while strangers connect without end", strangers_without_end),
    ("a server without a descriptor for the second of two members", no_descriptor_left),
)
