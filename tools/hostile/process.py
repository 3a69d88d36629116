"""The process itself under ill treatment: its streams, its memory, the file of its rules, and signals."""
import collections
import contextlib
import ctypes
import fcntl
import os
import pathlib
import re
import resource
import signal
import subprocess
import time

from .beside import Beside, probe, witnesses, working
from .members import Member, Table, announced, come_up, speak
from .playing import Seen, shown
from .targets import Exchange, ours

TOP = pathlib.Path(__file__).resolve().parent.parent.parent
TALKATIVE = {"bird": "log stderr all;\ndebug protocols all;\n"}
UNBOUND = resource.RLIM_INFINITY


def longest(waits, first, last=float("inf")):
    """The longest wait of a change that began then; none came: without end."""
    return max(waits.between(first, last), default=float("inf"))


def pipe():
    """Both ends of a pipe of one page."""
    reader, writer = os.pipe()
    fcntl.fcntl(writer, fcntl.F_SETPIPE_SZ, 4096)
    return reader, writer


def come_and_go(place, first, count):
    """So many members connect and close at once."""
    for at in range(first, first + count):
        with contextlib.suppress(OSError):
            Member(place, at).close(at_once=True)


def fill(writer):
    """Fills a pipe or a terminal, as one that has printed much would."""
    # Opened anew, so that it is this end alone that doesn't wait.
    ours = os.open(f"/proc/self/fd/{writer}", os.O_WRONLY | os.O_NONBLOCK | os.O_NOCTTY)
    with contextlib.suppress(BlockingIOError):
        while True:
            os.write(ours, b"x")
    os.close(ours)


def drained(reader, seconds):
    """Reads on for so long: what came."""
    os.set_blocking(reader, False)
    until, got = time.monotonic() + seconds, b""
    while time.monotonic() < until:
        with contextlib.suppress(BlockingIOError):
            got += os.read(reader, 65_536)
        time.sleep(0.02)
    return got.decode(errors="replace")


def unread(target, stream, seconds, hold=9):
    """Nobody reads what the server prints, while members come and go; then somebody does again."""
    reader, writer = pipe() if stream == "pipe" else os.openpty()
    with Exchange(target, 64, hold, top=TALKATIVE, words=("--log",), out=writer) as exchange:
        honest, probing = Beside(witnesses, exchange.place, 20, 5, hold=hold).ready(), Beside(probe, exchange.place, hold).ready()
        with working(honest, probing):
            time.sleep(2)
            first = time.monotonic()
            fill(writer)
            while time.monotonic() < first + seconds:
                come_and_go(exchange.place, 30, 20)
                time.sleep(0.5)
            last = time.monotonic()
            drained(reader, 1)
            come_and_go(exchange.place, 30, 20)
            later = drained(reader, 3)
            waits = probing.end()
            ended = sum(honest.end().values()) + sum(waits.ended.values())
    for it in (reader, writer):
        os.close(it)
    figures = {"lost": ended, "before": longest(waits, 0, first), "now": longest(waits, first, last), "lines": later.count("\n")}
    words = f"{stream}: a change waits up to {shown(figures['before'])}, then {shown(figures['now'])}, {ended} lost, {figures['lines']} lines once it is read"
    return Seen(figures, words)


def streams(target, kinds, seconds):
    """Each kind of stream, one after the other."""
    seen = [unread(target, it, seconds) for it in kinds]
    over = max(it.figures["now"] - 2 * it.figures["before"] for it in seen)
    figures = {"lost": sum(it.figures["lost"] for it in seen), "over": over, "lines": min(it.figures["lines"] for it in seen)}
    return Seen(figures, "; ".join(it.words for it in seen))


def limit_memory(exchange, more):
    """Leaves the process so many MB of addresses more than it has."""
    most = UNBOUND if more is None else (exchange.memory("VmSize") + more) << 20
    for pid in exchange.pids():
        resource.prlimit(pid, resource.RLIMIT_AS, (most, UNBOUND))


def exhausted(target, routes, most, more):
    """A member announces until there is no memory left, and goes: how long the others keep its routes."""
    with Exchange(target, 64, words=("--log",)) as exchange:
        giving, keeping = quiet = come_up([Table(exchange.place, at) for at in (10, 11)])
        giving.out += announced(10, 900_000, 900)
        speak(quiet, 20, lambda: len(keeping.routes) >= 900)
        limit_memory(exchange, more)
        big = come_up([Member(exchange.place, 2)])[0]
        big.out += announced(2, 0, routes, 3)
        speak([*quiet, big], 60, lambda: big.ended or not big.out)
        speak([*quiet, big], 5)
        kept, refused = len(keeping.routes), exchange.text().count("memory ") if exchange.is_ours else 0
        if exchange.is_ours and not refused:
            raise OSError("memory was not refused")
        how = big.ended or "up"
        big.close(at_once=True)
        began = time.monotonic()
        speak(quiet, most, lambda: keeping.ended or len(keeping.routes) == 900)
        took = time.monotonic() - began if keeping.ended or len(keeping.routes) == 900 else float("inf")
        state = f"its session ended ({keeping.ended})" if keeping.ended else f"{len(keeping.routes):,} routes"
        alive = "" if exchange.is_alive() else "; the server has ended"
    words = f"the large member {how}; another, which held {kept:,} routes, has {state} after {shown(took)} where 900 are due{alive}"
    return Seen({"took": took}, words)


class Reads:
    """How often a file is read, as the system says."""

    ACCESS = 1

    def __init__(self, path):
        system = ctypes.CDLL(None, use_errno=True)
        self.watch = system.inotify_init1(os.O_NONBLOCK)
        if self.watch < 0 or system.inotify_add_watch(self.watch, os.fsencode(path), self.ACCESS) < 0:
            raise OSError(ctypes.get_errno(), "inotify")

    def octets(self):
        try:
            return os.read(self.watch, 1 << 20)
        except BlockingIOError:
            return b""

    def times(self):
        """In how many different tenths of a second it was read while it was looked at for four seconds."""
        self.octets()
        seen, until = 0, time.monotonic() + 4
        while time.monotonic() < until:
            seen += bool(self.octets())
            time.sleep(0.1)
        os.close(self.watch)
        return seen


class File:
    """The file of the rules of a running server, and what becomes of it; `good` is what it was at first."""

    def __init__(self, exchange):
        self.exchange, self.path, self.good = exchange, exchange.file, exchange.file.read_text()

    def accepted(self):
        """How often rules were accepted so far, by the lines on standard output; those of the log begin with the time."""
        lines = re.findall(r"^rules accepted(?: (\d+))?$", self.exchange.text(), re.MULTILINE)
        return sum(int(often or 1) for often in lines)

    def replace(self, text):
        """Writes beside, then renames, as OPERATING says."""
        new = self.path.with_name("new")
        new.write_text(text)
        new.rename(self.path)

    def ruled(self, count):
        """The good text with so many rules of the last client."""
        return self.good + "".join(f'[[client.import]]\nprefix = "{40 + at}.0.0.0/8"\nmax = 32\naction = "drop"\n' for at in range(count))

    def taken(self, text, seconds=8):
        """Whether this text is accepted in this time, once it was renamed into place."""
        before, until = self.accepted(), time.monotonic() + seconds
        self.replace(text)
        while time.monotonic() < until and self.accepted() == before:
            time.sleep(0.2)
        return self.accepted() > before

    def half(self):
        """Writes the file in place in two halves, each of them good, half a second apart: how often rules were accepted."""
        whole, before = self.ruled(2), self.accepted()
        cut = len(self.ruled(1))
        with open(self.path, "w") as file:
            file.write(whole[:cut])
            file.flush()
            time.sleep(0.5)
            file.write(whole[cut:])
        time.sleep(5)
        return self.accepted() - before

    def fifo(self, seconds):
        """A FIFO stands there for so long, then the good file again."""
        self.path.unlink()
        os.mkfifo(self.path)
        time.sleep(seconds)
        # One that waits in its open is let go, whatever comes of it.
        with contextlib.suppress(OSError):
            os.close(os.open(self.path, os.O_WRONLY | os.O_NONBLOCK))
        self.replace(self.good)

    def huge(self, size, seconds):
        """A sparse file of this size stands there for so long: processor seconds, and the most memory in MB above that before."""
        used, held, most = self.exchange.seconds(), self.exchange.memory(), 0
        os.truncate(self.path, size)
        until = time.monotonic() + seconds
        while time.monotonic() < until:
            most = max(most, self.exchange.memory() - held)
            time.sleep(0.1)
        return self.exchange.seconds() - used, most


def reload(target, size, seconds):
    """The file of the rules is left alone beside a busy server, half written, a FIFO, huge, and good again."""
    with Exchange(target, 16, words=("--log", "--reload", "1")) as exchange, working(Beside(probe, exchange.place, pause=0.001)) as (probing,):
        probing.ready()
        file, figures = File(exchange), {}
        time.sleep(2)
        first = time.monotonic()
        figures["reads"] = Reads(file.path).times()
        figures["half"] = file.half()
        file.fifo(seconds)
        figures["processor"], figures["memory"] = file.huge(size, seconds)
        figures["again"] = file.taken(file.ruled(3))
        last = time.monotonic()
        time.sleep(1)
        waits = probing.end()
    figures["lost"] = sum(waits.ended.values())
    figures["before"], figures["now"] = longest(waits, 0, first), longest(waits, first, last)
    words = (
        f"an unchanged file is read in {figures['reads']} of 40 tenths of a second; a half written one: accepted {figures['half']} times; "
        f"a file of {size / 1e9:g} GB: {shown(figures['processor'])} of the processor in {seconds} s, {figures['memory']} MB; a change waits up to "
        f"{shown(figures['before'])}, then {shown(figures['now'])}; good rules are taken again: {'yes' if figures['again'] else 'no'}"
    )
    return Seen(figures, words)


def refused(words, library, number, room):
    """How a program ends where one of its requests for memory is refused, and how many it made."""
    reader, writer = os.pipe()
    environment = {**os.environ, "LD_PRELOAD": str(library), "REFUSE": str(number), "COUNTED": str(writer)}
    try:
        ran = subprocess.run(words, env=environment, pass_fds=(writer,), stdin=subprocess.DEVNULL, capture_output=True, timeout=20, cwd=room)
    finally:
        os.close(writer)
    with os.fdopen(reader) as told:
        made = [int(line) for line in told] or [0]
    return ran.returncode, (ran.stdout + ran.stderr).decode(errors="replace").strip(), made[-1]


def wrong_ends(words, library, room, most):
    """How a program ended that should have said that it is out of memory, by how often; and how often it was tried."""
    wrong, (status, said, requests) = collections.Counter(), refused(words, library, 0, room)
    if status or not requests:
        raise OSError(f"{words[0]}: status {status}, {requests} requests for memory: {said}")
    step = max(1, requests // most)
    for number in range(1, requests + 1, step):
        status, said, _ = refused(words, library, number, room)
        if status and not (status == 3 and "out of memory" in said):
            wrong[f"status {status}, {said.splitlines()[-1] if said else 'without a word'}"] += 1
    return wrong, len(range(1, requests + 1, step))


def replayer(program):
    """The other program, beside this one."""
    beside = (program.with_name("rs_replay"), program.parent.parent.parent / "rs_replay/out/rs_replay")
    return next((it for it in beside if it.exists()), None)


def starved(target, clients, most):
    """Memory is refused while the configuration is read, at one request after another, in both programs."""
    with Exchange(target, 2) as exchange:
        room, program = exchange.room, pathlib.Path(target.words(exchange.room)[0])
        library, config = room / "refuse.so", room / "many"
        subprocess.run(["cc", "-O2", "-shared", "-fPIC", "-o", library, TOP / "tools/plays/refuse_memory.c"], check=True, capture_output=True)
        config.write_text(ours(room, exchange.port, clients, 90))
        runs = {"rs_served": [program, "--config", config, "--check"]}
        if other := replayer(program):
            runs["rs_replay"] = [other, "--config", config]
        found = {name: wrong_ends(words, library, room, most) for name, words in runs.items()}
    words = []
    for name, (wrong, tried) in found.items():
        ends = ", ".join(f"{many} times {how}" for how, many in wrong.items())
        words.append(f"{name}: {tried} requests refused, {ends or 'each time status 0, or 3 and `out of memory`'}")
    if len(found) == 1:
        words.append("rs_replay isn't there")
    return Seen({"wrong": sum(wrong.total() for wrong, _ in found.values()), "programs": len(found)}, "; ".join(words))


def losses(text):
    """How many losses the lines on standard output name, by client and kind."""
    found = collections.Counter()
    for kind, name, many in re.findall(r"^(lost|close|memory) (c\d+)\b(?:[^\d\n]+(\d+))?$", text, re.MULTILINE):
        found[name, kind] += int(many or 1)
    return found


def ended_sessions(place, ats, times):
    """Members come up and close, all at once, so many times."""
    for _ in range(times):
        left = ats
        while left:
            them = [Member(place, at) for at in left]
            speak(them, 5, lambda: all(it.is_up or it.ended for it in them))
            left = [it.at for it in them if not it.is_up]
            for it in them:
                it.close(at_once=True)
            time.sleep(0.02)


def lines(target, members, times, routes, more):
    """Sessions end faster than a line a second, then for want of memory: whether each loss is told."""
    with Exchange(target, 64) as exchange:
        ats = range(2, 2 + members)
        ended_sessions(exchange.place, ats, times)
        time.sleep(5)
        told = losses(exchange.text())
        missing = {f"c{at}": times - told[f"c{at}", "lost"] - told[f"c{at}", "close"] for at in ats}
        limit_memory(exchange, more)
        them = come_up([Member(exchange.place, at) for at in range(30, 33)])
        for it in them:
            it.out += announced(it.at, it.at * routes, routes, 3)
        speak(them, 30, lambda: all(it.ended for it in them))
        limit_memory(exchange, None)
        speak(them, 3)
        told = losses(exchange.text())
        silent = [it.at for it in them if it.ended and not told[f"c{it.at}", "memory"]]
        refused_to = sum(bool(it.ended) for it in them)
    words = (
        f"{members * times} sessions ended, {sum(map(abs, missing.values()))} of them not told on standard output; "
        f"{refused_to} sessions ended for want of memory, {len(silent)} of them without a line `memory`"
    )
    return Seen({"missing": sum(map(abs, missing.values())), "silent": len(silent), "refused": refused_to}, words)


def signalled(target, sent, before):
    """Whether a server goes on after a signal, and still passes on changes."""
    with Exchange(target, 8, before=before) as exchange:
        exchange.process.send_signal(sent)
        time.sleep(0.5)
        if not exchange.is_alive():
            return False
        with working(Beside(probe, exchange.place)) as (probing,):
            probing.ready(15)
            time.sleep(1)
            return any(came for _, _, came in probing.end().changes)


def signals(target):
    """SIGHUP and SIGUSR1, SIGHUP to a server that was started as by nohup, and what the unit and OPERATING say of them."""
    bare = {it.name: signalled(target, it, None) for it in (signal.SIGHUP, signal.SIGUSR1)}
    kept = signalled(target, signal.SIGHUP, lambda: signal.signal(signal.SIGHUP, signal.SIG_IGN))
    unit, page = (TOP / "examples/rs_served.service").read_text(), (TOP / "docs/OPERATING.md").read_text()
    sends = any(word in line for line in unit.splitlines() if line.startswith("ExecReload") for word in ("kill", "HUP"))
    said = not sends and "SIGHUP" in page and "nohup" in page
    words = ", ".join(f"{name} {'is borne' if it else 'ends it'}" for name, it in bare.items())
    words += f"; under `nohup` SIGHUP {'is borne' if kept else 'ends it'}; OPERATING {'warns, and the unit sends none' if said else 'or the unit says otherwise'}"
    return Seen({"kept": kept, "said": said}, words)
