"""Gives commands to the control socket of a built rs_served while members exchange routes, and says what went otherwise than it must.

play.py control PROGRAM [--long]

Commands: each of them by a connection of its own and by `--ask`, its answer and the status; what the members are sent meanwhile:
a stop is Cease / Administrative Shutdown with the operator's text behind its length, a member that is kept down loses each
connection that it makes, and comes up again once it is enabled; a refresh tells all routes again; a reload is refused by its
fault and taken once it is mended. Beside them another member holds its session, and is told of what changed alone.
Lines: wrong ones, too long ones, several at once, in pieces, with no end; the connection stays, and the answers come in order.
Callers: four hold all places, a fifth waits; one who takes nothing of long answers keeps nobody else. With --long: one who says
nothing is closed after 60 seconds.
The file: its mode is 0600, a second server at one path ends with status 3 and leaves it, a killed server's is taken over, and one
that is no socket stays.
The end: `stop` sends each member its NOTIFICATION, the status is 0, the file is gone, and who asked by `--ask` waits for it.
All waiting is bounded.
"""
import contextlib
import json
import os
import pathlib
import signal
import socket
import stat
import subprocess
import tempfile
import threading
import time

from peers.members import Member, free_ports, routes, serving
from peers.speaker import prefixes

SECONDS = 60
ROUTES = 40
NAMES = ("alpha", "beta")
# Cease / Administrative Shutdown (RFC 4486, 4).
STOP = b"\x06\x02"


class Kept(Member):
    """A member who may be stopped and may lose routes, and counts what it is told again."""

    def __init__(self, *words):
        super().__init__(*words)
        self.may_lose, self.notes, self.again = True, [], 0

    def refused(self, body):
        self.notes.append(bytes(body))

    def told_of(self, withdrawn, field, nlri):
        known = [it for it in prefixes(nlri) if it[1:] in self.told]
        self.again += len(known)
        for it in known:
            del self.told[it[1:]]
        super().told_of(withdrawn, field, nlri)


class Caller:
    """A connection to the control socket."""

    def __init__(self, path):
        self.socket = socket.socket(socket.AF_UNIX)
        self.socket.settimeout(20)
        self.socket.connect(str(path))
        self.rest = b""

    def say(self, octets):
        self.socket.sendall(octets)

    def line(self):
        """The next line of an answer; nothing at the end."""
        while b"\n" not in self.rest:
            piece = self.socket.recv(65536)
            if not piece:
                return b""
            self.rest += piece
        line, _, self.rest = self.rest.partition(b"\n")
        return line

    def ask(self, command):
        """The answer to a command."""
        self.say(command.encode() + b"\n")
        return json.loads(self.line())

    def close(self):
        self.socket.close()


def ask(program, path, command):
    """The status and the answer of a server that is asked by the program."""
    words = [*program, "--ask", command, "--control", path]
    asked = subprocess.run(words, capture_output=True, timeout=40)
    return asked.returncode, asked.stdout.decode(), asked.stderr.decode()


class Exchange:
    """A server with a control socket and its members, who speak in a thread of their own."""

    def __init__(self, program, server, clients, path):
        self.program, self.server, self.clients, self.path = program, server, clients, path
        self.members, self.is_over, self.lock = {}, False, threading.Lock()
        self.thread = threading.Thread(target=self.speak)
        self.thread.start()

    def join(self, name):
        """A member comes."""
        at = NAMES.index(name)
        _, number, port, _ = self.clients[at]
        member = Kept(name, number, f"192.0.2.{11 + at}", ("127.0.0.1", port), routes(10 + at, ROUTES))
        with self.lock:
            self.members[name] = member
        return member

    def speak(self):
        while not self.is_over:
            with self.lock:
                for name, it in list(self.members.items()):
                    with contextlib.suppress(OSError):
                        it.write()
                    try:
                        stays = it.read()
                    except OSError:
                        stays = False
                    if not stays:
                        it.is_closed = True
                        it.socket.close()
                        del self.members[name]
            time.sleep(0.01)

    def waits(self, what):
        """Whether it comes to this in ten seconds."""
        until = time.monotonic() + 10
        while time.monotonic() < until:
            with self.lock:
                if what():
                    return True
            time.sleep(0.02)
        return False

    def close(self):
        self.is_over = True
        self.thread.join()
        for it in self.members.values():
            it.socket.close()


def closed(member):
    return getattr(member, "is_closed", False)


@contextlib.contextmanager
def exchange(program, *options):
    """A server with both members, whose sessions are up, and its control socket."""
    ports = free_ports(2)
    clients = [(name, 64496 + at, ports[at], "127.0.0.1") for at, name in enumerate(NAMES)]
    with tempfile.TemporaryDirectory(prefix="control-") as room:
        path = pathlib.Path(room) / "socket"
        with serving(program, clients, 9, "--control", path, *options) as server:
            if server.stdout.readline() != f"control {path}\n".encode():
                raise OSError("no line says that there is a control socket")
            it = Exchange(program, server, clients, path)
            try:
                both = [it.join(name) for name in NAMES]
                if not it.waits(lambda: all(len(member.told) == ROUTES for member in both)):
                    raise OSError("the members were not told each other's routes")
                yield it, *both
            finally:
                it.close()


def shows(program):
    """What is wrong with what is shown."""
    with exchange(program) as (it, alpha, _):
        caller = Caller(it.path)
        mode = stat.S_IMODE(os.stat(it.path).st_mode)
        if mode != 0o600:
            return f"the socket has the mode {mode:o}"
        every = caller.ask("show")["protocols"]
        if set(every) != set(NAMES) or any(each["state"] != "up" or "disabled" in each for each in every.values()):
            return f"show says {every}"
        one = caller.ask("show beta")["protocols"]
        if set(one) != {"beta"} or one["beta"]["neighbor_as"] != 64497:
            return f"show beta says {one}"
        why = caller.ask("why beta 10.0.3.0/24")
        if (why["to"], why["prefix"], [each["outcome"] for each in why["candidates"]]) != ("beta", "10.0.3.0/24", ["chosen"]):
            return f"why says {why}"
        if "disable NAME [TEXT]" not in caller.ask("help")["commands"]:
            return "help doesn't list the commands"
        status, said, errors = ask(program, it.path, "show beta")
        if status or errors or set(json.loads(said)["protocols"]) != {"beta"}:
            return f"--ask show beta says {said!r}, {errors!r}, status {status}"
        return alpha.wrong[0] if alpha.wrong else None


def stops_and_starts(program):
    """What is wrong where a member is disabled, enabled and refreshed."""
    with exchange(program) as (it, alpha, beta):
        caller, text = Caller(it.path), "moved to port 7, é"
        said = caller.ask(f"disable alpha {text}")
        if said != {"done": "disable", "member": "alpha"}:
            return f"disable is answered {said}"
        note = STOP + bytes([len(text.encode())]) + text.encode()
        if not it.waits(lambda: closed(alpha)) or alpha.notes != [note]:
            return f"a disabled member is sent {alpha.notes}, and {'' if closed(alpha) else 'not '}closed"
        if not it.waits(lambda: not beta.told):
            return "the other member keeps the routes of one that is disabled"
        again = it.join("alpha")
        if not it.waits(lambda: closed(again)) or again.notes or again.is_up:
            return f"a disabled member comes again, is sent {again.notes}, and {'' if closed(again) else 'not '}closed"
        down = caller.ask("show alpha")["protocols"]["alpha"]
        if (down["state"], down.get("disabled")) != ("down", True):
            return f"of a disabled member is shown {down}"
        if (status := ask(program, it.path, "enable alpha")[0]) != 0:
            return f"--ask enable ends with status {status}"
        alpha = it.join("alpha")
        if not it.waits(lambda: len(alpha.told) == ROUTES and len(beta.told) == ROUTES):
            return "an enabled member does not come up again"
        up = caller.ask("show alpha")["protocols"]["alpha"]
        if up["state"] != "up" or "disabled" in up:
            return f"of an enabled member is shown {up}"
        if caller.ask("refresh beta") != {"done": "refresh", "member": "beta"} or not it.waits(lambda: beta.again == ROUTES):
            return f"a refreshed member is told {beta.again} routes again"
        if caller.ask("disable beta") != {"done": "disable", "member": "beta"} or not it.waits(lambda: closed(beta)) or beta.notes != [STOP]:
            return f"a member disabled without a text is sent {beta.notes}"
        if alpha.again or alpha.notes or alpha.wrong:
            return "another member was told more than that routes went"
        return None


def reloads(program):
    """What is wrong with a reload."""
    with exchange(program) as (it, alpha, beta):
        caller, file = Caller(it.path), pathlib.Path(it.server.args[it.server.args.index("--config") + 1])
        good = file.read_text()
        rule = '[[client.export]]\nprefix = "10.0.0.0/8"\nmax = 32\naction = "drop"\n'
        if (said := caller.ask("reload")) != {"done": "reload", "changed": said.get("changed")}:
            return f"a reload of what is there is answered {said}"
        if (said := caller.ask("reload")) != {"done": "reload", "changed": False}:
            return f"a second reload of it is answered {said}"
        file.write_text(good + "as = 1\n")
        status, said, _ = ask(program, it.path, "reload")
        if status != 1 or not json.loads(said)["error"].startswith("rules refused: "):
            return f"--ask reload of a bad file says {said!r}, status {status}"
        file.unlink()
        if "error" not in (said := caller.ask("reload")):
            return f"a reload of a file that is not there is answered {said}"
        file.write_text(good + rule)
        if (said := caller.ask("reload")) != {"done": "reload", "changed": True}:
            return f"a reload of new rules is answered {said}"
        if not it.waits(lambda: not beta.told) or len(alpha.told) != ROUTES or alpha.wrong or beta.wrong:
            return "new rules are not used"
        return None


def lines(program):
    """What is wrong with lines that are refused, or come otherwise than one by one."""
    with exchange(program) as (it, alpha, beta):
        caller = Caller(it.path)
        wrong = {
            "": "no command",
            "   ": "no command",
            "shut alpha": "unknown command: shut",
            "Show": "unknown command: Show",
            "show gamma": "no such member: gamma",
            "show alpha beta": "one word too many: beta",
            "why alpha": "the prefix is missing",
            "why": "the name of a member is missing",
            "why alpha ten": "no prefix: ten",
            "why alpha 10.0.0.1/8": "no prefix: 10.0.0.1/8",
            "why alpha 10.0.0.0/8 x": "one word too many: x",
            "disable": "the name of a member is missing",
            "disable gamma": "no such member: gamma",
            "disable alpha " + 129 * "x": "the text has more than 128 octets",
            "enable alpha now": "one word too many: now",
            "refresh": "the name of a member is missing",
            "reload all": "one word too many: all",
            "stop now": "one word too many: now",
            'show "\t<&>': "no such member: \"\t<&>",
        }
        for line, part in wrong.items():
            if not (said := caller.ask(line)).get("error", "").startswith(part):
                return f"{line!r} is answered {said}"
        for octets in (b"show \xff\n", b"x" * 5000 + b"\n", b"\0\n"):
            caller.say(octets)
            if "error" not in (said := json.loads(caller.line())):
                return f"{octets[:20]!r} is answered {said}"
        for part in b"  show   beta  \n":
            caller.say(bytes([part]))
            time.sleep(0.01)
        caller.say(b"help\nshow alpha\nnone\nhelp")
        caller.socket.shutdown(socket.SHUT_WR)
        said = [json.loads(caller.line()) for _ in range(5)]
        if [list(each)[-1] for each in said] != ["protocols", "commands", "protocols", "error", "commands"] or caller.line():
            return f"lines at once are answered {said}"
        status, said, _ = ask(program, it.path, "show gamma")
        if status != 1 or json.loads(said) != {"error": "no such member: gamma"}:
            return f"--ask show gamma says {said!r}, status {status}"
        if closed(alpha) or closed(beta):
            return "a member lost its session by a line that was refused"
        return None


def callers(program):
    """What is wrong with callers who hold all places, or take nothing."""
    with exchange(program) as (it, alpha, beta):
        held = [Caller(it.path) for _ in range(4)]
        for each in held:
            if "commands" not in each.ask("help"):
                return "one of four callers is not answered"
        late = Caller(it.path)
        late.say(b"help\n")
        late.socket.settimeout(1.5)
        with contextlib.suppress(TimeoutError):
            return f"a fifth caller is answered {late.line()!r}"
        late.socket.settimeout(5)
        held.pop().close()
        if b"commands" not in late.line():
            return "a fifth caller is not answered once there is a place"
        deaf = held.pop()
        deaf.socket.setblocking(False)
        with contextlib.suppress(BlockingIOError):
            for _ in range(20_000):
                deaf.say(b"show\n")
        for _ in range(20):
            if "protocols" not in late.ask("show"):
                return "a caller is not answered beside one who takes nothing"
        if late.ask("refresh beta") != {"done": "refresh", "member": "beta"} or not it.waits(lambda: beta.again == ROUTES):
            return "BGP doesn't go on beside a caller who takes nothing"
        return "a member lost its session" if closed(alpha) or closed(beta) else None


def silent(program):
    """How long a caller who says nothing stays."""
    with exchange(program) as (it, *_):
        began, caller = time.monotonic(), Caller(it.path)
        caller.socket.settimeout(70)
        said, stayed = caller.line(), time.monotonic() - began
        return None if not said and 59 < stayed < 63 else f"a silent caller stays {stayed:.1f} seconds, and is told {said!r}"


def again(program, path, config):
    """The status and the errors of a server at this path that does not come up; or it is killed."""
    words = [*program, "--config", config, "--control", path]
    with subprocess.Popen(words, stdout=subprocess.PIPE, stderr=subprocess.PIPE) as server:
        try:
            server.wait(3)
        except subprocess.TimeoutExpired:
            server.kill()
        return server.returncode, server.stderr.read().decode()


def configured(room, name):
    """A configuration of one member, in a file."""
    (port,) = free_ports(1)
    file = pathlib.Path(room) / name
    file.write_text(
        f'as = 64500\nidentifier = "192.0.2.1"\n[[client]]\nname = "alpha"\nas = 64496\nlisten = "127.0.0.1:{port}"\npeer = "127.0.0.1"\n'
    )
    return file


def files(program):
    """What is wrong with the file of the socket."""
    with exchange(program) as (it, *_), tempfile.TemporaryDirectory(prefix="control-") as room:
        config = configured(room, "a.toml")
        status, errors = again(program, it.path, config)
        if status != 3 or "listening failed" not in errors or "protocols" not in Caller(it.path).ask("show"):
            return f"a second server at one path ends with status {status}, {errors!r}"
        plain = pathlib.Path(room) / "plain"
        plain.write_text("kept")
        status, errors = again(program, plain, config)
        if status != 3 or plain.read_text() != "kept":
            return f"a server at a file that is no socket ends with status {status}, {errors!r}"
        path = pathlib.Path(room) / "stale"
        with subprocess.Popen([*program, "--config", config, "--control", path], stdout=subprocess.DEVNULL) as server:
            while not path.exists():
                time.sleep(0.01)
            server.send_signal(signal.SIGKILL)
        status, said, errors = ask(program, path, "show")
        if status != 3 or said or "asking failed" not in errors:
            return f"--ask of a killed server ends with status {status}, {errors!r}"
        with subprocess.Popen([*program, "--config", config, "--control", path], stdout=subprocess.PIPE) as server:
            server.stdout.readline()
            if server.stdout.readline() != f"control {path}\n".encode() or "protocols" not in Caller(path).ask("show"):
                return "the file of a killed server is not taken over"
            server.kill()
        return None


def stop(program):
    """What is wrong with the end."""
    with exchange(program) as (it, alpha, beta):
        waiting = []
        thread = threading.Thread(target=lambda: waiting.append(ask(program, it.path, "stop")))
        thread.start()
        if not it.waits(lambda: closed(alpha) and closed(beta)) or (alpha.notes, beta.notes) != ([STOP], [STOP]):
            return f"at the end members are sent {alpha.notes} and {beta.notes}"
        status = it.server.wait(7)
        thread.join()
        if status or it.path.exists():
            return f"the server ends with status {status}, and its file is {'there' if it.path.exists() else 'gone'}"
        if waiting[0] != (0, '{"done":"stop"}\n', ""):
            return f"--ask stop says {waiting[0]}"
        return None


PLAYS = (
    ("what the control socket shows", shows),
    ("a member disabled, enabled, refreshed", stops_and_starts),
    ("a reload by command", reloads),
    ("lines to the control socket", lines),
    ("callers at the control socket", callers),
    ("the file of the control socket", files),
    ("a stop by command", stop),
)

LONG = (("a silent caller at the control socket", silent),)


def play_control(program, plays=PLAYS):
    """Plays all: what was tried, and what is wrong or None."""
    words = [program] if isinstance(program, (str, pathlib.Path)) else list(program)
    for name, play in plays:
        try:
            wrong = play(words)
        except (OSError, ValueError, subprocess.TimeoutExpired) as fault:
            wrong = f"{fault!r}"
        yield name, wrong


def by_words(words):
    """The results, by the words of a command behind the play's name; None where these are others."""
    program = [word for word in words if word != "--long"]
    if program:
        return play_control(program, PLAYS + LONG if "--long" in words else PLAYS)
    return None
