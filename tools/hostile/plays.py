"""Plays of rows, in the long form and in the short one."""
import collections
import os
import sys

from .playing import Seen, bounded
from .table import NEEDED, ROWS
from .targets import targets

# What a row came to: what was seen by name of the server, what is missed or None, the load before it and how often it was played.
Played = collections.namedtuple("Played", "seen missed load times")


def chosen(letters, short):
    """The rows of these letters, or all; the short form has not each."""
    known = [it for it in ROWS if it.short is not None or not short]
    if not letters:
        return known
    if unknown := set(letters) - {it.letter for it in known}:
        sys.exit(f"no such row{' in the short form' if short else ''}: {', '.join(sorted(unknown))}")
    return [it for it in known if it.letter in letters]


def play_to(names, row, known, short):
    """Plays a row to each of these servers that is there: what was seen, by name."""
    seen = {}
    for name in names:
        if not known[name].missing:
            found = bounded(row.seconds, row.play, known[name], row.short if short else row.sizes)
            seen[name] = found if isinstance(found, Seen) else Seen(None, found)
            print(f"  {row.letter}, {name}: {seen[name].words}", flush=True)
    return seen


def play(rows, known, short):
    """Plays these rows: each with what it came to.

    The second time it is played to ours and to those that the verdict needs.
    """
    for row in rows:
        seen, names = {}, row.servers
        for times in (1, 2):
            load = os.getloadavg()[0]
            seen |= play_to(names, row, known, short)
            missed = row.judge(seen, short) if seen["ours"].figures else seen["ours"].words
            if not missed:
                break
            print(f"  {row.letter}: missed at load {load:.1f}{', and played once more' if times == 1 else ''}: {missed}", flush=True)
            names = [it for it in row.servers if it in ("ours", NEEDED.get(row.letter))]
        yield row, Played(seen, missed, load, times)


def play_short(program, letters):
    """The short form of these rows to ours alone, for the gate: the name of each, and what is missed or None."""
    known = targets([str(program)])
    if known["ours"].missing:
        yield "hostile members", known["ours"].missing
        return
    rows = [it._replace(servers=("ours",)) for it in chosen(letters, True)]
    for row, it in play(rows, known, True):
        yield f"hostile members, row {row.letter}", it.missed and f"{it.missed} (load {it.load:.1f})"
