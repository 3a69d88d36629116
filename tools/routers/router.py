"""A BGP daemon as a member of an exchange: what all five have in common.

Each member is a process of its own with files in a folder of its own. It connects to the server from an address on
loopback; none of them changes the system's routing table. A route as a daemon shows it is a Route.
"""
import collections
import contextlib
import json
import os
import pathlib
import signal
import subprocess

Route = collections.namedtuple("Route", "path next_hop med communities")
Place = collections.namedtuple("Place", "server port number")

# What one command of a daemon may take, in seconds.
PATIENCE = 60


def run(*words, **more):
    """What a command prints on both of its outputs; it may fail, since daemons are asked while they start or stop."""
    try:
        return subprocess.run(words, stdout=subprocess.PIPE, stderr=subprocess.STDOUT, text=True, timeout=PATIENCE, **more).stdout
    except subprocess.TimeoutExpired:
        return ""


def loaded(text):
    """A text in JSON, or nothing where it is none."""
    try:
        return json.loads(text)
    except ValueError:
        return {}


def prefixes_of(at, count):
    """So many prefixes of 24 bits, of the member of this number."""
    return [f"{20 + at}.{it // 256}.{it % 256}.0/24" for it in range(count)]


class Router:
    """What all five have in common. `kinds` are the attributes of its routes, by their number modulo their count."""

    # What a member of any route server sets; what it lacks; whether a session without four-octet AS numbers can be set.
    settings, has_short, refreshes = "nothing", False, True
    # What its own count of what it heard counts; whether it shows 0 where a route has no MED.
    counts, shows_zero = "UPDATEs", False
    # Whether its table keeps what it was told when the session is down; whether it can offer messages beyond 4,096 octets.
    keeps_told, has_long = False, False

    def __init__(self, place, number, at, room, short, count=1000, long=False):
        self.place, self.number, self.at, self.long = place, number, at, long
        self.address, self.next_hop = f"127.0.1.{at}", f"10.255.0.{at}"
        self.room, self.short, self.process = pathlib.Path(room) / self.name, short and self.has_short, None
        self.room.mkdir()
        self.room.chmod(0o755)
        self.prefixes = prefixes_of(at, count)

    def kinds(self):
        """The routes: as they are, with communities, prepended with MED, and learnt from others."""
        own = self.number
        both = (f"{own}:100", "65000:1")
        return [
            Route((own,), self.next_hop, None, ()),
            Route((own,), self.next_hop, None, both),
            Route((own, own, own), self.next_hop, 50, ()),
            Route((own, 64511, 65551), self.next_hop, 7, (f"{own}:300",)),
        ]

    def sent(self):
        """Each prefix with the route that it announces."""
        kinds = self.kinds()
        return {it: kinds[at % len(kinds)] for at, it in enumerate(self.prefixes)}

    def start(self):
        for name, text in self.files().items():
            (self.room / name).write_text(text)
            (self.room / name).chmod(0o600)
        with open(self.room / "out", "w") as out:
            self.process = subprocess.Popen(self.words(), stdout=out, stderr=out, stdin=subprocess.DEVNULL, env=self.surroundings(), start_new_session=True)

    def surroundings(self):
        return None

    def is_there(self):
        return self.process.poll() is None

    def kill(self):
        """Ends the process at once, as a machine that loses its power does, and whatever it started itself."""
        with contextlib.suppress(ProcessLookupError):
            os.killpg(self.process.pid, signal.SIGKILL)
        self.process.wait()

    def end(self):
        """Ends the process that was started, by its number."""
        if self.process and self.process.poll() is None:
            self.process.send_signal(signal.SIGTERM)
            try:
                self.process.wait(5)
            except subprocess.TimeoutExpired:
                self.process.kill()
                self.process.wait()

    def after_start(self):
        """What is to be done once the daemon answers."""
