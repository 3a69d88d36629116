"""Plays many forms of the recorded sessions to a built rs_replay, and says where clients hold otherwise than they are to.

play.py sweeps PROGRAM FOLDER

The plain function says what each client is to hold (`holding.py`).

- Each front of each recorded session of FOLDER.
- Wrong readings of the plain function, each without one of its sentences: some recorded session must find each.
- Each session with rooms of one octet in place of its rooms: the octets of each client, joined, must be the same.
- A loss of the connection behind so many octets of an UPDATE that were taken, or heard, each number that there is.
- What member a says in the recorded sessions, each OPEN, KEEPALIVE and UPDATE, cut behind each octet and then lost, and
  with each octet as 00, as ff and one greater (of long ones behind the first 512 with each fifth), while its session is in
  OpenSent and in Established: no session but a's ends, and a's only where what it said is at fault. Many are played one behind
  the other, each by connections of its own. Of sessions about rules, which differ in values alone, a message counts where none
  before it has its form.
"""
import collections
import itertools
import pathlib
import struct
import tomllib

from plain import SENTENCES

from .holding import Played, asked, drain, names, play
from .ignored import LISTED
from .read_rules import AS_PATH, read_attributes


# The sentences of the definitions that some recorded session needs: in none do two clients have one address.
READINGS = [it for it in SENTENCES if it != "place"]
# How many sessions are played one behind the other in one run.
AT_ONCE = 200
# So many octets at the front of a message are cut and changed one by one.
FRONT = 512
MARKER = "ff" * 16
KEEPALIVE = MARKER + "001304"
# The OPENs of the members of examples/four_members.toml, and a's as a two-octet peer.
OPENS = {
    name: f"{MARKER}00250104fbf{at}005ac000020{identifier}080206410400" + f"00fbf{at}"
    for at, (name, identifier) in enumerate(zip("abcd", "bcde"))
}
TWO_OCTETS = f"{MARKER}001d0104fbf0005ac000020b00"
# Routes of a, and one of b.
ROUTE = "40010100" + "40020602010000fbf0" + "400304c000020b"
FIRST = f"{MARKER}002f0200000014{ROUTE}18c63364"
SECOND = f"{MARKER}0036020000001b{ROUTE}8004040000000518c63364"
OF_TWO_OCTETS = f"{MARKER}002d0200000012" + "40010100" + "400204" + "0201fbf0" + "400304c000020b" + "18c63364"
BESIDE = f"{MARKER}002f020000001440010100" + "40020602010000fbf1" + "400304c000020c" + "18cb0071"


def up(name, opening=None):
    """The lines by which a member comes up, by its own OPEN or by this one."""
    return [f"open {name}", f"octets {name} {opening or OPENS[name]}", f"octets {name} {KEEPALIVE}", f"room {name} 1000"]


def session(folder, name):
    """The configuration of a recorded session, and its lines."""
    config = folder / f"{name}.toml"
    text = (config if config.exists() else folder.parent / "four_members.toml").read_text()
    trace = (folder / f"{name}.trace").read_text()
    return text, [line for line in trace.splitlines() if line and not line.startswith("#")]


def sessions(folder):
    """Each recorded session that comes to its end, by its name."""
    for trace in sorted(folder.glob("*.trace")):
        if not trace.with_suffix(".status").exists():
            yield trace.stem, *session(folder, trace.stem)


class Sweep:
    """Sessions that are played, in which links are closed for faults alone or not, and what the plain function says of each."""

    def __init__(self, program, is_closed_for_faults=False):
        self.program, self.is_closed_for_faults = program, is_closed_for_faults
        self.counts, self.held = collections.Counter(), collections.Counter()
        self.wrong = collections.defaultdict(list)

    def play(self, name, text, lines, workers=1):
        """Plays a session and what drains its clients."""
        played = play(self.program, text, [*lines, *drain(tomllib.loads(text))], workers)
        self.take(name, played)
        return played

    def play_in_turn(self, name, text, sessions):
        """Plays sessions one behind the other, each by connections of its own, and what drains its clients."""
        config = tomllib.loads(text)
        before, behind = [f"lost {it}" for it in names(config)], drain(config)
        parts = [[*before, *lines, *behind] for lines in sessions]
        whole = play(self.program, text, list(itertools.chain.from_iterable(parts)))
        lines = iter(whole.lines)
        for part in parts:
            played = Played(whole.config, list(itertools.islice(lines, len(part))), [], whole.status, whole.errors)
            self.take(name, played)
            yield played

    def take(self, name, played):
        """A session of this name was played."""
        if played.status:
            self.wrong[name].append(f"status {played.status}: {played.errors.strip()}")
        self.counts[name] += 1
        wrong, routes = asked(played, None, self.is_closed_for_faults)
        self.held[name] += routes
        if wrong:
            self.wrong[name].append(f"{wrong} behind\n" + "\n".join(line for line, _ in played.lines))

    def results(self):
        """What is wrong with the sessions of each name, or None."""
        for name, count in self.counts.items():
            wrong = self.wrong[name]
            yield f"{name}, {count} sessions, {self.held[name]} routes held", "\n".join(wrong[:1]) if wrong else None


def fronts(program, folder):
    """Each front of each recorded session, and then the wrong readings of what the whole ones were held against."""
    sweep, whole = Sweep(program), []
    for name, text, lines in sessions(folder):
        for count in range(1, len(lines) + 1):
            played = sweep.play(f"fronts of {name}", text, lines[:count])
        whole.append(played)
    yield from sweep.results()
    for reading in READINGS:
        found = sum(asked(it, reading).wrong is not None for it in whole)
        yield f"the definitions without {reading}: {found} sessions differ", None if found else "no session finds it"


def sent(played):
    """The octets sent to each client, joined, and where its sessions ended."""
    found = collections.defaultdict(str)
    for written in [*(it for _, it in played.lines), played.rest]:
        for line in written:
            what, name, *octets = line.split(" ")
            if what in ("sent", "close"):
                found[name] += octets[0] if octets else "."
    return found


def one_by_one(line, most):
    """Rooms of one octet in place of a room, and no more than are ever used."""
    word, *words = line.split(" ")
    return [f"room {words[0]} 1"] * min(int(words[1]), most) if word == "room" else [line]


def rooms(program, folder):
    """Each recorded session by rooms of one octet."""
    for name, text, lines in sessions(folder):
        whole = play(program, text, lines)
        most = sum(len(it) for it in sent(whole).values())
        pieces = play(program, text, list(itertools.chain.from_iterable(one_by_one(it, most) for it in lines)))
        same = whole.status == pieces.status == 0 and sent(whole) == sent(pieces)
        yield f"rooms of one octet, {name}", None if same else f"sent\n{dict(sent(pieces))}\nand not\n{dict(sent(whole))}"


def losses(program, folder):
    """A loss behind each number of octets of an UPDATE that were taken, and of one that was heard."""
    text = (folder.parent / "four_members.toml").read_text()
    sweep = Sweep(program)
    met = [*up("a"), *up("b")]
    for count in range(len(FIRST) // 2 + 1):
        taken = [*met, f"octets a {FIRST}", "turn", f"room b {count}"]
        sweep.play("b is lost behind octets taken", text, [*taken, "lost b", *up("b")])
        again = ["open a", f"octets a {OPENS['a']}", f"octets a {KEEPALIVE}"]
        sweep.play("a is lost behind octets taken, and comes with another route", text, [*taken, "lost a", *again, f"octets a {SECOND}"])
        sweep.play("a is lost behind octets taken, and comes with none", text, [*taken, "lost a", "turn", "room b 3", *again])
        heard = sweep.play("a is lost behind octets heard", text, [*met, f"octets a {FIRST[: 2 * count]}", "lost a", "turn", "room b 5000"])
        if any(line.startswith("sent b") for _, written in heard.lines[len(met) :] for line in written):
            sweep.wrong["a is lost behind octets heard"].append(f"b was sent octets behind {count}")
    yield from sweep.results()


def split(octets):
    """The whole messages at the front of these octets, and what is left."""
    messages = []
    while len(octets) >= 19 and 19 <= (length := int.from_bytes(octets[16:18])) <= len(octets):
        messages.append(octets[:length])
        octets = octets[length:]
    return messages, octets


def form(message):
    """The lengths of an UPDATE's fields, and of each attribute flags, type, length and how AS_PATH begins; any other message itself."""
    if message[18] != 2 or message[19:21] != b"\0\0":
        return message
    field = message[23 : 23 + int.from_bytes(message[21:23])]
    try:
        return len(message), *((kind, flags, len(it), it[:2] * (kind == AS_PATH)) for kind, (flags, it) in read_attributes(field).items())
    except (IndexError, struct.error):
        return message


def corpus(folder):
    """What a says in the recorded sessions, each message once: the session, whether a spells AS numbers in four octets, and the message."""
    found, forms_found = {}, set()
    for name, text, lines in sorted(sessions(folder), key=lambda it: bool(LISTED.search(it[1]))):
        rest, is_four = b"", True
        for word, who, *more in (line.split(" ") for line in lines if line.split(" ")[:2] in (["open", "a"], ["octets", "a"])):
            messages, rest = split(rest + bytes.fromhex("".join(more))) if word == "octets" else ([], b"")
            for message in messages:
                if message[18] == 1:
                    is_four = bytes.fromhex("4104") in message
                if message[18] in (1, 2, 4) and not (LISTED.search(text) and (is_four, form(message)) in forms_found):
                    found.setdefault((is_four, message), name)
                    forms_found.add((is_four, form(message)))
    return [(name, is_four, message) for (is_four, message), name in found.items()]


def places(octets):
    """Where a message is cut and changed: at each of its first octets, and at each fifth of a long one behind them, which meets
    all octets that a prefix of /24 has."""
    return [*range(min(len(octets), FRONT)), *range(FRONT, len(octets), 5)]


def forms(octets):
    """The lines by which a says a message that is cut, and then is lost, and one in which an octet is changed."""
    for at in places(octets):
        yield [f"octets a {octets[: at + 1].hex()}", "lost a"]
        for changed in {0, 255, (octets[at] + 1) % 256} - {octets[at]}:
            yield [f"octets a {(octets[:at] + bytes([changed]) + octets[at + 1 :]).hex()}"]


def cuts(program, folder):
    """Each message of the corpus cut and changed, in OpenSent and in Established."""
    text = (folder.parent / "four_members.toml").read_text()
    sweep = Sweep(program, is_closed_for_faults=True)
    # b has a route of its own, which a's end must leave to c.
    others = [*up("b"), *up("c"), f"octets b {BESIDE}"]
    for name, is_four, message in corpus(folder):
        opening, route = (OPENS["a"], FIRST) if is_four else (TWO_OCTETS, OF_TWO_OCTETS)
        established = [*up("a", opening), f"octets a {route}", "turn", "room b 1000"]
        for state, before in (("OpenSent", ["open a", "room a 1000"]), ("Established", established)):
            tried = f"cut and changed in {state}, of {name}"
            sessions = ([*others, *before, *lines] for lines in forms(message))
            while some := list(itertools.islice(sessions, AT_ONCE)):
                for lines, played in zip(some, sweep.play_in_turn(tried, text, some)):
                    ended = {line for _, written in played.lines for line in written if line.startswith(("close", "memory"))}
                    if ended - {"close a"}:
                        sweep.wrong[tried].append(f"{sorted(ended)} behind {lines}")
    yield from sweep.results()


def play_sweeps(program, folder):
    """The results of all sweeps."""
    if not program.exists():
        yield "sweeps", f"{program} isn't there"
        return
    yield from fronts(program, folder)
    yield from rooms(program, folder)
    yield from losses(program, folder)
    yield from cuts(program, folder)


def by_words(words):
    """The results, by the words of a command behind the play's name; None where these are others."""
    if len(words) == 2:
        return play_sweeps(*(pathlib.Path(it).resolve() for it in words))
    return None
