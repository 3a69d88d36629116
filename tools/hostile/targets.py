"""The servers that are attacked: ours, BIRD with one table or a table for each client, and OpenBGPD."""
import contextlib
import os
import pathlib
import pwd
import shutil
import signal
import subprocess
import sys
import tempfile
import time

sys.path.append(str(pathlib.Path(__file__).resolve().parent.parent.parent / "bench"))

from peers.members import SERVER_AS, free_ports
from servers import installed, version_of
from try_live import listens

from .members import number, source

HOST, IDENTIFIER = "127.77.0.2", "192.0.2.1"


def ours(room, port, clients, hold, top="", each=""):
    """A configuration of this project's server."""
    text = [f'as = {SERVER_AS}\nidentifier = "{IDENTIFIER}"\nhold = {hold}\nmultiprotocol = true\n{top}']
    for at in range(clients):
        text.append(f'[[client]]\nname = "c{at}"\nas = {number(at)}\nlisten = "{HOST}:{port}"\npeer = "{source(at)}"\n{each}')
    return "\n".join(text) + "\n"


def bird_head(room):
    return (
        f'log "{room}/bird.log" {{ warning, error, fatal, bug }};\nrouter id {IDENTIFIER};\nprotocol device {{ }}\n'
        'ipv4 table main4;\nipv4 table lan;\nprotocol static { ipv4 { table lan; }; route 10.255.0.0/16 via "lo"; }\n'
    )


def bird_template(port, hold, more=""):
    return (
        f"template bgp t_rs {{ local {HOST} port {port} as {SERVER_AS}; rs client; passive; multihop; strict bind; "
        f"hold time {hold}; graceful restart off; {more} }}\n"
    )


def bird(room, port, clients, hold, top="", each=""):
    """BIRD with one table."""
    text = bird_head(room) + top + bird_template(port, hold, "ipv4 { table main4; igp table lan; import all; export all; };")
    return text + "".join(f"protocol bgp c{at} from t_rs {{ neighbor {source(at)} as {number(at)}; }}\n" for at in range(clients))


def bird_tables(room, port, clients, hold, top="", each=""):
    """BIRD with a table for each client, joined by pipes; a client's own routes hide no other there."""
    text = bird_head(room) + top + "attribute int member_no;\n" + bird_template(port, hold)
    for at in range(clients):
        text += (
            f"ipv4 table t{at};\nprotocol bgp c{at} from t_rs {{ neighbor {source(at)} as {number(at)}; ipv4 {{ table t{at}; igp table lan; "
            f"import filter {{ member_no = {at}; preference = 50; accept; }}; export all; }}; }}\n"
            f"protocol pipe p{at} {{ table main4; peer table t{at}; import filter {{ preference = 100; accept; }}; "
            f"export where member_no != {at}; }}\n"
        )
    return text


def openbgpd(room, port, clients, hold, top="", each=""):
    """OpenBGPD, with a rule against each client's own routes, so that they hide no other."""
    text = f'AS {SERVER_AS}\nrouter-id {IDENTIFIER}\nlisten on {HOST} port {port}\nfib-update no\nsocket "{room}/bgpd.sock"\nholdtime {hold}\n'
    text += 'rde evaluate all\ngroup "rs" {\n passive\n transparent-as yes\n enforce neighbor-as no\n multihop 4\n announce IPv4 unicast\n'
    text += f" announce IPv6 none\n announce restart no\n announce refresh yes\n announce enhanced refresh no\n local-address {HOST}\n"
    text += "".join(f" neighbor {source(at)} {{ remote-as {number(at)} }}\n" for at in range(clients))
    text += "}\nallow from any\nallow to any\nmatch to any set nexthop no-modify\n"
    return text + "".join(f"deny quick to {source(at)} peer-as {number(at)}\n" for at in range(clients))


class Target:
    """A server that can be attacked: its name, how it is configured and started, whether it is there, and its version."""

    def __init__(self, name, configuration, words, missing, version):
        self.name, self.configuration, self.words, self.missing, self.version = name, configuration, words, missing, version


def targets(program):
    """All of them by name; `program` is ours, as words."""
    ours_missing = None if shutil.which(program[0]) else f"{program[0]} isn't there"
    bird_words = lambda room: ["bird", "-f", "-c", room / "conf", "-s", room / "ctl"]
    bird_version = lambda: version_of("bird", "--version")
    bgpd_missing = installed("bgpd") or (None if os.getuid() == 0 else "wants to be started by root")
    known = (
        Target("ours", ours, lambda room: [*program, "--config", room / "conf"], ours_missing, lambda: version_of(*program, "--version")),
        Target("bird", bird, bird_words, installed("bird"), bird_version),
        Target("bird-tables", bird_tables, bird_words, installed("bird"), bird_version),
        Target("openbgpd", openbgpd, lambda room: ["bgpd", "-d", "-f", room / "conf"], bgpd_missing, lambda: version_of("bgpd", "-V")),
    )
    return {it.name: it for it in known}


def status(pid, name):
    """A figure of a process's status in KiB, 0 where there is none."""
    with contextlib.suppress(OSError):
        for line in pathlib.Path(f"/proc/{pid}/status").read_text().splitlines():
            if line.startswith(name + ":"):
                return int(line.split()[1])
    return 0


class Exchange:
    """A running server with so many clients, in a folder of its own; it ends with the block.

    `words` are options of ours alone; `out` is where standard output and error go, if not to a file;
    `before` is called in the process before the server is.
    """

    def __init__(self, target, clients, hold=90, top=None, each="", words=(), out=None, before=None):
        self.target, self.is_ours = target, target.name == "ours"
        self.port = free_ports(1)[0]
        self.place = (HOST, self.port)
        self.room = pathlib.Path(tempfile.mkdtemp(prefix="hostile-"))
        self.room.chmod(0o777)
        self.file = self.room / "conf"
        self.file.write_text(target.configuration(self.room, self.port, clients, hold, (top or {}).get(target.name, ""), each))
        self.file.chmod(0o600)
        self.options = list(words) if self.is_ours else []
        self.out, self.before, self.process = out, before, None

    def __enter__(self):
        if self.target.name == "openbgpd":
            # It locks itself into the home folder of its user.
            os.makedirs(pwd.getpwnam("_openbgpd").pw_dir, exist_ok=True)
        with open(self.room / "out", "w") as file:
            out = self.out if self.out is not None else file
            words = [*self.target.words(self.room), *self.options]
            self.process = subprocess.Popen(words, stdin=subprocess.DEVNULL, stdout=out, stderr=out, preexec_fn=self.before)
        until = time.monotonic() + 60
        while not listens(self.port):
            if time.monotonic() > until or self.process.poll() is not None:
                said = self.text()[-300:].strip()
                self.end()
                raise OSError(f"{self.target.name} does not listen: {said}")
            time.sleep(0.05)
        return self

    def __exit__(self, *_):
        self.end()

    def end(self):
        if self.is_alive():
            self.process.send_signal(signal.SIGCONT)
            self.process.terminate()
            try:
                self.process.wait(8)
            except subprocess.TimeoutExpired:
                self.process.kill()
                self.process.wait()
        shutil.rmtree(self.room, ignore_errors=True)

    def is_alive(self):
        return self.process is not None and self.process.poll() is None

    def text(self):
        """What it has printed, where that goes to a file."""
        try:
            return (self.room / "out").read_text(errors="replace")
        except OSError:
            return ""

    def pids(self):
        """The process and its descendants."""
        found, todo = [], [self.process.pid]
        while todo:
            found.append(todo.pop())
            with contextlib.suppress(OSError):
                todo += map(int, pathlib.Path(f"/proc/{found[-1]}/task/{found[-1]}/children").read_text().split())
        return found

    def seconds(self):
        """Processor seconds that it has used, by the clocks of its processes."""
        whole = 0.0
        for pid in self.pids():
            with contextlib.suppress(OSError):
                whole += time.clock_gettime((~pid << 3) | 2)
        return whole

    def memory(self, name="VmRSS"):
        """What it takes, in MB."""
        return sum(status(it, name) for it in self.pids()) // 1024

    def settle(self, most=90, idle=0.05, times=3):
        """Waits until it works no more: less than `idle` processor seconds in one, three times, as it may wait for a processor."""
        until, last, still = time.monotonic() + most, self.seconds(), 0
        while still < times and time.monotonic() < until:
            time.sleep(1)
            now = self.seconds()
            still = still + 1 if now - last < idle else 0
            last = now
