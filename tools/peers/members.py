"""Members over sockets on loopback, and a built rs_served that serves them, for the plays of it."""
import contextlib
import pathlib
import selectors
import socket
import struct
import subprocess
import tempfile
import time

from .speaker import Speaker, attributes, prefixes, update

SERVER_AS = 64500


class Member(Speaker):
    """A member of the exchange: what it announces, and what it has heard."""

    def __init__(self, name, number, address, server, routes, source="127.0.0.1"):
        super().__init__(number, address, server, source)
        self.name, self.number, self.address, self.routes = name, number, address, routes
        self.told, self.wrong, self.may_lose = {}, [], False

    def attributes(self, group):
        """Those of the group's routes."""
        return attributes([self.number], self.address, group)

    def came_up(self):
        """Announces all routes, ten for each set of attributes."""
        for group in range(0, len(self.routes), 10):
            nlri = b"".join(b"\x18" + it for it in self.routes[group : group + 10])
            self.out += update(field=self.attributes(group // 10), nlri=nlri)

    def refused(self, body):
        self.wrong.append(f"was sent the NOTIFICATION {body.hex()}")

    def told_of(self, withdrawn, field, nlri):
        if withdrawn and not self.may_lose:
            self.wrong.append("was told of a withdrawal")
        for prefix in prefixes(withdrawn):
            self.told.pop(prefix[1:], None)
        for prefix in prefixes(nlri):
            if prefix[1:] in self.told:
                self.wrong.append(f"was told twice of {prefix.hex()}")
            self.told[prefix[1:]] = field

    def sent(self):
        """What others must be told of it."""
        return {it: self.attributes(at // 10) for at, it in enumerate(self.routes)}


def routes(first, count):
    """The first three octets of so many prefixes of 24 bits."""
    return [struct.pack(">I", (first << 24) + (at << 8))[:3] for at in range(count)]


def exchange(members, listening, until):
    """Lets the members speak until each that listens was told as many routes as the others have."""
    wanted = {it: sum(len(other.routes) for other in members if other is not it) for it in listening}
    with selectors.DefaultSelector() as selector:
        for it in members:
            selector.register(it.socket, selectors.EVENT_READ, it)
        deaf = [it for it in members if it not in wanted]
        while time.monotonic() < until and any(len(it.told) < wanted[it] for it in listening) and not any(it.wrong for it in members):
            for it in members:
                it.write()
            for key, _ in selector.select(0.01):
                key.data.read()
            for it in [it for it in deaf if it.is_up]:
                selector.unregister(it.socket)
                deaf.remove(it)


def differs(server, members, listening, until):
    """What went wrong, or None."""
    exchange(members, listening, until)
    for it in members:
        if it.wrong:
            return f"{it.name} {it.wrong[0]}"
    for it in listening:
        wanted = {}
        for other in members:
            if other is not it:
                wanted.update(other.sent())
        if it.told != wanted:
            return f"{it.name} was told {len(it.told)} routes, and not just the {len(wanted)} of the others as they were sent"
    return None


def ends(server, members, until):
    """Closes all members; the server must end by itself."""
    for it in members:
        it.socket.close()
    try:
        status = server.wait(max(1, until - time.monotonic()))
    except subprocess.TimeoutExpired:
        return "the server did not end after all sessions had"
    return f"status {status}" if status else None


def speak(members, until, is_over):
    """Lets the members speak until it is over; what went wrong, or None."""
    while time.monotonic() < until:
        for it in members:
            it.write()
            if not it.read():
                it.wrong.append("lost its connection")
            if it.wrong:
                return f"{it.name} {it.wrong[0]}"
        if is_over():
            return None
        time.sleep(0.01)
    return "waited for in vain"


def replace(server, head):
    """Puts a file that begins with this in place of a server's configuration."""
    file = pathlib.Path(server.args[server.args.index("--config") + 1])
    beside = file.with_name("new")
    beside.write_text(head + file.read_text())
    beside.rename(file)


@contextlib.contextmanager
def serving(program, clients, sessions, *options, rules=None):
    """A server for these clients, each a name, an AS, a port and an address, with the rules of some by their names, by these options; it
    listens already."""
    text = f'as = {SERVER_AS}\nidentifier = "192.0.2.1"\n'
    for name, number, port, peer in clients:
        text += f'[[client]]\nname = "{name}"\nas = {number}\nlisten = "127.0.0.1:{port}"\npeer = "{peer}"\n'
        text += (rules or {}).get(name, "")
    with tempfile.TemporaryDirectory(prefix="served-") as room:
        config = pathlib.Path(room) / "config.toml"
        config.write_text(text)
        words = [*program, "--config", config, "--sessions", str(sessions), "--workers", "2", *options]
        with subprocess.Popen(words, stdout=subprocess.PIPE, stderr=subprocess.STDOUT) as server:
            try:
                for _ in {port for _, _, port, _ in clients}:
                    server.stdout.readline()
                yield server
            finally:
                server.kill()


def free_ports(count):
    """Ports that nobody listens at."""
    held = [socket.create_server(("127.0.0.1", 0)) for _ in range(count)]
    ports = [it.getsockname()[1] for it in held]
    for it in held:
        it.close()
    return ports


def each_played(program, plays, seconds):
    """Plays each, by a program's path or a command's words, within so many seconds: its name, and what is wrong or None."""
    words = [program] if isinstance(program, (str, pathlib.Path)) else list(program)
    for name, play in plays:
        try:
            wrong = play(words, time.monotonic() + seconds)
        except OSError as fault:
            wrong = str(fault)
        yield name, wrong
