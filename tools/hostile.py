#!/usr/bin/env python3
"""Plays hostile members and accidents to a built rs_served, and to other route servers in the same run; says what is borne.

hostile.py PROGRAM [--short] [--rows a,b,..] [--servers NAME,..] [--page FILE] [--build TEXT]

Each attack has a bound in time, and ends with all that it has started. A row that is missed is played once more before it
counts; the load of the machine then stands beside it, and it is played to ours under perf, where that is installed. The short form
has the rows that take seconds, in small sizes, and ours alone. FILE is made anew with the verdicts on these rows and on those that
were played before, each with its build, as the .csv beside it keeps them. TEXT says which build PROGRAM is. Status 1 where a
row is missed.
"""
import argparse
import pathlib
import signal
import sys

from hostile.kept import Kept, build_of
from hostile.page import page
from hostile.plays import chosen, play
from hostile.profiled import profile
from hostile.targets import targets
from results import end

PROVED = "proved and built by `make build`"


def main():
    parser = argparse.ArgumentParser(description=__doc__, formatter_class=argparse.RawDescriptionHelpFormatter)
    parser.add_argument("program", nargs="+")
    parser.add_argument("--short", action="store_true")
    parser.add_argument("--rows", default="", metavar="a,b,..")
    parser.add_argument("--servers", default="", metavar="NAME,..")
    parser.add_argument("--page", type=pathlib.Path)
    parser.add_argument("--build", default=PROVED)
    options = parser.parse_args()
    # Whatever ends this script, what it started is ended too.
    signal.signal(signal.SIGTERM, lambda *_: sys.exit("ended by a signal"))
    known = targets(options.program)
    if known["ours"].missing:
        sys.exit(known["ours"].missing)
    servers = options.servers.split(",") if options.servers else ["ours"] if options.short else list(known)
    letters = options.rows.split(",") if options.rows else []
    rows = [it._replace(servers=tuple(name for name in it.servers if name in {"ours", *servers})) for it in chosen(letters, options.short)]
    for it in known.values():
        if it.missing and it.name in servers:
            print(f"{it.name}: skipped: {it.missing}")
    if options.short and options.page:
        sys.exit("the page is of the long form")
    held, differ = 0, 0
    kept = options.page and Kept(options.page.with_name(f"{options.page.stem.lower()}.csv"), build_of(options.program[0], options.build))
    for row, it in play(rows, known, options.short):
        held, differ = held + (not it.missed), differ + bool(it.missed)
        print(f"{row.letter}: {f'missed: {it.missed}' if it.missed else 'held'} (load {it.load:.1f})", flush=True)
        if kept:
            kept.keep(row, it, profile(row, known["ours"]) if it.missed else "")
            options.page.write_text(page(kept, known))
    end(held, differ)


if __name__ == "__main__":
    main()
