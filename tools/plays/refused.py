"""Plays recorded sessions to a built rs_replay where a request for memory is refused, and says what went otherwise than it must.

play.py refused PROGRAM FOLDER

Of the requests for memory of a session, by 1 and by 2 workers, each is refused in a run of its own. It must show as a
line `memory NAME`, with `close NAME` where octets came and without at a turn; as `rules refused: out of memory`; or as status 3
with the words `out of memory`, and then what was written is a front of what is written else. Six kinds show as nothing: the
one request of READING; those for a number that octets turn out not to need, since their prefix or their attributes have one;
those by which a thread is started for a turn by 2 workers, which is then done on one; those of a turn for what serves other
clients too, choices, what rules left of routes, and what is due alike with the blocks made of it, which is then made anew for
these; those by which a client whose session came up is lent another's blocks, of which it then has none; and those behind a
turn by which other clients can have the same rows, which are then the client's own still. Behind the session the clients that
were lost come again and say again what they said, a turn and room for all follow, and each Established client must hold what
the plain function says (`holding.py`).
"""
import collections
import pathlib
import subprocess
import tempfile
import tomllib

from .holding import asked, drain, play
from .preloading import built, preloaded
from .sweeps import session


REFUSED = (
    "first_route", "origin_out_of_range_withdraws", "rule_hides_a_path_from_one", "withdrawn_before_it_was_sent",
    "flap_between_takings", "lost_in_mid_message", "hold_timer_runs_out", "community_stripped",
    "new_route_in_place_of_the_old", "rules_replaced", "news_of_whole_blocks",
)

# One request while the words of the command line are read, before any file is opened, is made again in another way
# where it is refused.
READING = 1


def refused(program, library, text, lines, workers, number):
    """A session of which this request is refused, and how many there were."""
    run = lambda environment, descriptors: play(program, text, lines, workers, environment, descriptors)
    played, told = preloaded(library, "COUNTED", run, REFUSE=str(number))
    return played, [int(line) for line in told.split()][-1]


def lost(played):
    """The clients whose sessions ended by want of memory, by rising name."""
    ended = set()
    for _, written in played.lines:
        ended |= {f"close {line.split(' ')[1]}" for line in written if line.startswith("memory ")} & set(written)
    return sorted(line.split(" ")[1] for line in ended)


def again(names, lines):
    """The lines by which clients come again, and say again what they said since they came last."""
    for name in names:
        yield f"lost {name}"
        last = max(at for at, line in enumerate(lines) if line == f"open {name}")
        yield from (line for line in lines[last:] if line == f"open {name}" or line.startswith(f"octets {name} "))


def is_shown(line, written):
    """The refusal shows in what a line wrote."""
    word = line.split(" ")[0]
    names = [it.split(" ")[1] for it in written if it.startswith("memory ")]
    if word == "octets":
        return len(names) == 1 and f"close {names[0]}" in written
    if word == "turn":
        return len(names) == 1 and f"close {names[0]}" not in written
    return word == "rules" and "rules refused: out of memory" in written


def all_written(played):
    return [*(it for _, written in played.lines for it in written), *played.rest]


class Refusals:
    """A session of which each request for memory is refused."""

    def __init__(self, program, library, text, lines, workers):
        self.program, self.library, self.text, self.workers = program, library, text, workers
        self.lines, self.rest = lines, drain(tomllib.loads(text))
        # How many requests were made before each line, and in all.
        self.counts = [self.play(lines[:count], 0)[1] for count in range(len(lines) + 1)]

    def play(self, lines, number):
        return refused(self.program, self.library, self.text, lines, self.workers, number)

    def line_of(self, number):
        """The line that makes this request, or None before the first."""
        behind = next(at for at, count in enumerate(self.counts) if number <= count)
        return self.lines[behind - 1] if behind else None

    def play_refused(self, number):
        """The session of which this request is refused, and those that it costs come again."""
        names = []
        for _ in range(3):
            played, _ = self.play([*self.lines, *again(names, self.lines), *self.rest], number)
            if played.status or lost(played) == names:
                break
            names = lost(played)
        return played

    def kind(self, number, played):
        """How a refusal shows: in a line, by the status, in none of both for a reason, or what is wrong with it."""
        shown = [is_shown(line, written) for line, written in played.lines if any("memory" in it for it in written)]
        if played.status:
            whole = all_written(self.play(self.lines, 0)[0])
            is_front = all_written(played) == whole[: len(all_written(played))]
            good = played.status == 3 and "out of memory" in played.errors and not shown and is_front
            return "by status 3" if good else f"status {played.status}: {played.errors.strip()}"
        if shown:
            return "in a line" if shown == [True] else "in a line where none is due"
        if number <= self.counts[0]:
            return "nowhere, by the words"
        is_turn = self.workers > 1 and self.line_of(number) == "turn"
        is_heard = self.line_of(number).startswith("octets ")
        where = "octets" if is_heard else self.line_of(number)
        return "nowhere, by a thread" if is_turn else f"nowhere, at {where}"


# Each turn by two workers starts a thread, for which this many requests are made.
OF_A_THREAD = 1
# A number is made ready before it is known whether a prefix or attributes have one, by this many where none was left.
OF_NUMBERS = 1
# For what serves other clients too a worker makes this many at a turn.
OF_CHOICES = 1
# That others can have its rows, which lie in one block in these sessions, a client makes this many behind a turn.
OF_ROWS = 1
# To lend blocks to a client whose session came up takes so many at its first turn.
OF_LENT = 1
# So many more are made where eight prefixes or more are touched at once, and rows lie in several blocks, by so many workers:
# several ask in an order that is theirs.
OF_BLOCKS = {"news_of_whole_blocks": {1: 5, 2: 40}}


def sweep(program, library, folder, name, workers):
    """How the refusals of a session show, and what is wrong."""
    refusals = Refusals(program, library, *session(folder, name), workers)
    kinds, otherwise = collections.Counter(), []
    for number in range(1, refusals.counts[-1] + 1):
        played = refusals.play_refused(number)
        kinds[refusals.kind(number, played)] += 1
        if not played.status and (found := asked(played).wrong):
            otherwise.append(f"{found} where request {number} is refused")
    turns, clients = refusals.lines.count("turn"), len(tomllib.loads(refusals.text)["client"])
    begun = sum(line.startswith("open ") for line in refusals.lines)
    more = OF_LENT * begun + OF_BLOCKS.get(name, {}).get(workers, 0)
    most = {
        "in a line": number,
        "by status 3": number,
        "nowhere, by the words": READING,
        "nowhere, at octets": OF_NUMBERS * sum(line.startswith("octets ") for line in refusals.lines),
        "nowhere, at turn": (OF_CHOICES + OF_ROWS * clients) * turns + more,
        "nowhere, by a thread": (OF_A_THREAD + OF_CHOICES * workers + OF_ROWS * clients) * turns + more,
    }
    wrong = [f"{count} shown {kind}" for kind, count in kinds.items() if count > most.get(kind, 0)] + otherwise
    told = ", ".join(f"{count} {kind}" for kind, count in sorted(kinds.items()))
    return f"memory refused, {name} by {workers} workers: {told}", "\n".join(wrong) or None


def play_refused(program, folder):
    """The results of all."""
    try:
        with tempfile.TemporaryDirectory() as room:
            library = built(room, "refuse_memory")
            for name in REFUSED:
                for workers in (1, 2):
                    yield sweep(program, library, folder, name, workers)
    except (OSError, subprocess.SubprocessError) as fault:
        yield "memory refused", str(fault)


def by_words(words):
    """The results, by the words of a command behind the play's name; None where these are others."""
    if len(words) == 2:
        return play_refused(*(pathlib.Path(it).resolve() for it in words))
    return None
