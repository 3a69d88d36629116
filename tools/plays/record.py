"""Records a built rs_served, and plays the record to a built rs_replay: each member must have been sent, octet for octet, what
the replay sends it.

play.py record SERVED REPLAY

A recorded run: two members of 200 routes make 3,600 changes, as many as an hour has at one a second, as fast as they come; one of
them stops reading for some of them, so that the server's outbox is full; it breaks off in the middle of a message and comes
again; the configuration is replaced twice. The record is in files of 1 MiB.
A file that takes no more: the server may write so much and no more; the record must end in whole lines, the server must say
so, and the members must be told all the same.

All waiting is bounded: 60 seconds a play.
"""
import pathlib
import random
import struct
import subprocess
import tempfile
import time

from peers.members import Member, differs, ends, free_ports, replace, routes, serving
from peers.speaker import MARKER, attributes, update

SECONDS = 60
CHANGES = 3600
ROUTES = 200
PREPENDED = 80
# As many as an UPDATE of 4,096 octets has room for.
COMMUNITIES = 900


class Tap:
    """A socket, and all octets that were read from it."""

    def __init__(self, it):
        self.socket, self.kept = it, bytearray()

    def recv(self, most):
        piece = self.socket.recv(most)
        self.kept += piece
        return piece

    def __getattr__(self, name):
        return getattr(self.socket, name)


class Changing(Member):
    """A member that changes its routes at random, and keeps what it is sent."""

    # A member that reads nothing holds up the server soon.
    window = 65536

    def __init__(self, name, number, address, server, first, seed):
        super().__init__(name, number, address, server, routes(first, ROUTES))
        self.socket, self.random, self.own, self.is_deaf = Tap(self.socket), random.Random(seed), {}, False

    def came_up(self):
        for prefix in self.routes:
            self.announce(prefix)

    def announce(self, prefix, communities=0):
        """Announces a prefix with a path of some length, and so many communities."""
        path = [self.number] * self.random.randint(1, PREPENDED)
        pairs = [(64512, it) for it in range(communities)]
        self.own[prefix] = attributes(path, self.address, self.random.getrandbits(32), pairs)
        self.out += update(field=self.own[prefix], nlri=b"\x18" + prefix)

    def change(self, communities):
        """Announces one of its prefixes, or withdraws it."""
        prefix = self.random.choice(self.routes)
        if prefix in self.own and self.random.random() < 0.3:
            del self.own[prefix]
            self.out += update(withdrawn=b"\x18" + prefix)
        else:
            self.announce(prefix, communities)

    def told_of(self, withdrawn, field, nlri):
        for at in range(0, len(withdrawn), 4):
            self.told.pop(bytes(withdrawn[at + 1 : at + 4]), None)
        for at in range(0, len(nlri), 4):
            self.told[bytes(nlri[at + 1 : at + 4])] = field

    def read(self):
        return self.is_deaf or super().read()


def speak(members, until, is_over):
    """Lets the members speak until it is over; what went wrong, or None."""
    while time.monotonic() < until:
        for it in members:
            it.write()
            if not it.read():
                return f"{it.name} lost its connection"
            if it.wrong:
                return f"{it.name} {it.wrong[0]}"
        if is_over():
            return None
        time.sleep(0.002)
    return "waited for in vain"


def settle(alpha, beta, until):
    """Lets them speak until each was told what the other has."""
    is_settled = lambda: all(it.is_up and not it.out for it in (alpha, beta)) and alpha.told == beta.own and beta.told == alpha.own
    return speak([alpha, beta], until, is_settled)


def churn(alpha, beta, until):
    """The changes of two members; alpha reads nothing in the second third, in which the other's are large."""
    for at in range(CHANGES):
        alpha.is_deaf = CHANGES // 3 <= at < 2 * CHANGES // 3
        if alpha.is_deaf:
            beta.change(COMMUNITIES)
        else:
            (alpha if at % 4 == 0 else beta).change(0)
        if at % 5 == 0 and (wrong := speak([alpha, beta], until, lambda: True)):
            return wrong
    return settle(alpha, beta, until)


def comes_again(alpha, clients, until, beta):
    """Alpha breaks off in the middle of a message, and is there again; the new one, or what went wrong."""
    alpha.out += update(field=attributes([64496], "192.0.2.11"), nlri=b"\x18\x0b\x00\x00")[:30]
    if wrong := speak([alpha, beta], until, lambda: not alpha.out):
        return None, wrong
    alpha.socket.close()
    if wrong := speak([beta], until, lambda: not beta.told):
        return None, wrong
    again = Changing(*alpha_words(clients), 12, 5)
    return again, settle(again, beta, until)


def alpha_words(clients):
    """Who alpha is."""
    name, number, port, _ = clients[0]
    return name, number, "192.0.2.11", ("127.0.0.1", port)


def replaced(server, alpha, beta, until):
    """The server is taken out by its rules, and put back."""
    file = pathlib.Path(server.args[server.args.index("--config") + 1])
    text = file.read_text()
    replace(server, 'default = "drop"\n')
    if wrong := speak([alpha, beta], until, lambda: not alpha.told and not beta.told):
        return wrong
    beside = file.with_name("new")
    beside.write_text(text)
    beside.rename(file)
    return settle(alpha, beta, until)


def quiet(members, until):
    """Lets the members speak until nothing was heard for a second."""
    heard, since = None, time.monotonic()

    def is_quiet():
        nonlocal heard, since
        now = [len(it.socket.kept) for it in members]
        if now != heard:
            heard, since = now, time.monotonic()
        return time.monotonic() > since + 1

    return speak(members, until, is_quiet)


def files_of(record):
    """The files of a record, in their order."""
    files = [record]
    while (later := record.with_name(f"{record.name}.{len(files)}")).exists():
        files.append(later)
    return files


def links_of(replay, record):
    """What a replay of the record sends on each connection of each member, and what is wrong with it, or None."""
    text = b"".join(it.read_bytes() for it in files_of(record))
    config = record.with_name(f"{record.name}.toml")
    done = subprocess.run([replay, "--config", config], input=text, capture_output=True, timeout=SECONDS, check=False)
    if done.returncode:
        return {}, f"the replay ends with status {done.returncode}: {done.stdout[-200:].decode()}{done.stderr.decode()}"
    links = {}
    for line in done.stdout.decode().splitlines():
        word, *rest = line.split(" ")
        if word != "sent":
            continue
        name, octets = rest[0], bytes.fromhex(rest[1])
        # A connection begins with an OPEN, and no other offer does.
        if octets.startswith(MARKER) and octets[18] == 1:
            links.setdefault(name, []).append(bytearray())
        links[name][-1] += octets
    return links, None


def replay_differs(replay, record, taps):
    """What a replay sends otherwise than it was received, or None. Each member has the taps of its connections; of one that it
    broke off it has a front."""
    links, wrong = links_of(replay, record)
    if wrong:
        return wrong
    for name, of_member in taps.items():
        sent = links.get(name, [])
        if len(sent) != len(of_member):
            return f"{name} had {len(of_member)} connections, and the replay has {len(sent)}"
        for at, (octets, tap) in enumerate(zip(sent, of_member, strict=True)):
            is_last = at + 1 == len(of_member)
            if octets != tap.kept and (is_last or not octets.startswith(tap.kept)):
                same = next((i for i, (a, b) in enumerate(zip(octets, tap.kept)) if a != b), min(len(octets), len(tap.kept)))
                return f"connection {at + 1} of {name}: {len(tap.kept)} octets were received, {len(octets)} replayed, and they differ from {same} on"
    return None


def record_differs(record):
    """What is wrong with a record that was not ended before its run, or None."""
    files = files_of(record)
    if len(files) < 2:
        return "the record has one file"
    for it in files:
        first, _, rest = it.read_text().partition("\n")
        if not (first.startswith("# 20") and first.endswith("Z")):
            return f"{it.name} begins with {first}"
        if "ends here" in rest or not rest.endswith("\n"):
            return f"{it.name} was cut off"
        if it.stat().st_mode & 0o777 != 0o600:
            return f"{it.name} can be read by others"
        if "[[client]]" not in it.with_name(f"{it.name}.toml").read_text():
            return f"{it.name}.toml has no client"
    return None


def a_recorded_run(served, replay, until):
    """3,600 changes, a full outbox, a loss in the middle of a message, and rules that are replaced."""
    ports = free_ports(2)
    clients = [("alpha", 64496, ports[0], "127.0.0.1"), ("beta", 64497, ports[1], "127.0.0.1")]
    with tempfile.TemporaryDirectory(prefix="record-") as room:
        record = pathlib.Path(room) / "run"
        with serving([served], clients, 3, "--reload", "1", "--record", record, "--record-size", "1") as server:
            first = Changing(*alpha_words(clients), 10, 3)
            beta = Changing("beta", 64497, "192.0.2.12", ("127.0.0.1", ports[1]), 11, 4)
            if wrong := settle(first, beta, until) or churn(first, beta, until):
                return wrong
            again, wrong = comes_again(first, clients, until, beta)
            if wrong := wrong or replaced(server, again, beta, until) or quiet([again, beta], until):
                return wrong
            again.socket.close()
            # The other is told that its routes are gone, and then leaves.
            if wrong := speak([beta], until, lambda: not beta.told) or quiet([beta], until) or ends(server, [beta], until):
                return wrong
        return record_differs(record) or replay_differs(replay, record, {"alpha": [first.socket, again.socket], "beta": [beta.socket]})


def a_file_that_takes_no_more(served, replay, until):
    """The record ends in whole lines where the server may write no more, and BGP goes on."""
    ports = free_ports(2)
    clients = [("alpha", 64496, ports[0], "127.0.0.1"), ("beta", 64497, ports[1], "127.0.0.1")]
    # 200 blocks of 512 octets; the signal that comes with it is ignored, as a full disk has none.
    words = ["sh", "-c", 'trap "" XFSZ; ulimit -f 200; exec "$0" "$@"', served]
    with tempfile.TemporaryDirectory(prefix="record-") as room:
        record = pathlib.Path(room) / "run"
        with serving(words, clients, 2, "--record", record) as server:
            members = [
                Member(name, number, f"192.0.2.{11 + at}", ("127.0.0.1", ports[at]), routes(10 + at, 4_000))
                for at, (name, number, _, _) in enumerate(clients)
            ]
            if wrong := differs(server, members, members, until) or ends(server, members, until):
                return wrong
            said = server.stdout.read().decode().splitlines()
        text = record.read_text()
        if "record ended: the file takes no more" not in said:
            return f"the server says {said}"
        if not text.endswith("\n") or len(text) < 90_000:
            return f"the record has {len(text)} octets and ends with {text[-80:]!r}"
        return links_of(replay, record)[1]


PLAYS = (
    ("a recorded run, and its replay", a_recorded_run),
    ("a record whose file takes no more", a_file_that_takes_no_more),
)


def play_records(served, replay):
    """The result of each play: its name, and what is wrong or None."""
    for name, play in PLAYS:
        try:
            wrong = play(str(served), str(replay), time.monotonic() + SECONDS)
        except (OSError, ValueError, struct.error, subprocess.SubprocessError) as error:
            wrong = f"{type(error).__name__}: {error}"
        yield f"rs_served --record: {name}", wrong


def by_words(words):
    """The results, by the words of a command behind the play's name; None where these are others."""
    if len(words) == 2:
        return play_records(*words)
    return None
