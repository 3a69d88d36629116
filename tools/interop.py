#!/usr/bin/env python3
"""Plays BIRD, OpenBGPD, FRR, GoBGP and ExaBGP as members of a built rs_served, and says what each saw.

interop.py PROGRAM [--member NAME] [--page FILE]

All that are installed are members at once, beside a plain member of our own, on loopback addresses. The play runs twice:
with four-octet AS numbers in all sessions, then with two-octet sessions where a daemon can be set so. Then each is a member
alone beside the plain one: with 20,000 routes, a Hold Time of 9 seconds and long messages, and either side is ended by SIGKILL.
What is not installed is skipped with a word, and a skip is not counted as passed. FILE is made anew with the tables of
what was seen.
"""
import argparse
import contextlib
import datetime
import os
import pathlib
import platform
import signal
import sys
import tempfile
import time

from results import end
from routers import ALL
from routers.plays import CHECKS, HEAVY, HEAVY_CHECKS, LIGHT, HeavyPlay, Play

# All of it, in seconds.
MOST = 1800


def table(names, checks, seen):
    """What was seen, a line for each check; those that were seen alike stand in one."""
    text = ["", "| | " + " | ".join(names) + " |", "|---" * (len(names) + 1) + "|"]
    lines = {}
    for check, _ in checks:
        lines.setdefault(" | ".join(seen.get((check, name), "") for name in names), []).append(check)
    return text + [f"| {', '.join(alike)} | {line} |" for line, alike in lines.items()]


# What stands after this line of the page was seen otherwise, and stays as it is.
KEPT = "## Newer versions\n"


def write_page(page, members, plays, heavy, missing):
    """The tables of what was seen."""
    today = datetime.date.today()
    text = ["# Members that were tried", ""]
    text += [
        "What common BGP daemons see as members of this server, all at once beside a plain member of our own: each has",
        "1,000 routes of four kinds (as they are; with communities; prepended, with a MED; with others' AS numbers in the",
        "path, a MED and a community). On loopback, `multiprotocol` and `refresh` set. Made by `make interop`.",
        "",
        f"{today.day} {today:%B %Y}, {platform.system()} {platform.release()}, {os.cpu_count()} processors.",
        "",
        "Members, with settings beyond the neighbour, their routes and that they may take and send all: "
        + ", ".join(f"{it.name} {it.version()}" + ("" if it.settings == "nothing" else f" ({it.settings})") for it in members)
        + ".",
    ]
    text += [f"Skipped: {name}, {why}." for name, why in missing]
    names = [it.name for it in members]
    shown = []
    for title, seen in plays:
        text += ["", f"## {title}", *(["", "All as above."] if seen in shown else table([*names, "plain"], CHECKS, seen))]
        shown.append(seen)
    text += ["", "### What a line says", ""] + [f"- **{check}**: {words}" for check, words in CHECKS if words]
    text += ["", f"## {HEAVY.count:,} routes, Hold Time {HEAVY.hold}, long messages", ""]
    text += ["Each alone beside the plain member, each of both with as many routes, `hold = 9` and `extended` set."]
    text += table(names, HEAVY_CHECKS, heavy)
    text += ["", "### What else a line says", ""] + [f"- **{check}**: {words}" for check, words in HEAVY_CHECKS if words and (check, words) not in CHECKS]
    kept = page.read_text().partition(KEPT)[1:] if page.exists() else ()
    page.write_text("\n".join(text) + "\n" + "".join(["\n", *kept] if any(kept) else []))


def played(title, program, members, short, until, kind=Play, load=LIGHT):
    """One play: its title, and what was seen, by check and member."""
    print(title, flush=True)
    with tempfile.TemporaryDirectory(prefix="interop-") as room, contextlib.ExitStack() as stack:
        os.chmod(room, 0o755)
        play = kind(program, members, room, short, until, load)
        stack.callback(play.end)
        play.run()
        return title, play.seen


def main():
    parser = argparse.ArgumentParser(description=__doc__, formatter_class=argparse.RawDescriptionHelpFormatter)
    parser.add_argument("program", nargs="+")
    parser.add_argument("--member", choices=[it.name for it in ALL])
    parser.add_argument("--page", type=pathlib.Path)
    options = parser.parse_args()
    # Whatever ends this script, the processes that it started are ended too.
    signal.signal(signal.SIGTERM, lambda *_: sys.exit("ended by a signal"))
    wanted = [it for it in ALL if options.member in (None, it.name)]
    missing = [(it.name, it.missing()) for it in wanted if it.missing()]
    members = [it for it in wanted if not it.missing()]
    for name, why in missing:
        print(f"{name}: skipped: {why}")
    if not members:
        sys.exit("no member is installed: nothing was tried")
    until = time.monotonic() + MOST
    plays = [played("Sessions with four-octet AS numbers", options.program, members, False, until)]
    able = [it for it in members if it.has_short]
    if able:
        names = ", ".join(it.name for it in able)
        plays.append(played(f"Two-octet sessions of {names}", options.program, members, True, until))
    heavy = {}
    for it in members:
        heavy.update(played(f"{HEAVY.count} routes, {it.name}", options.program, [it], False, until, HeavyPlay, HEAVY)[1])
    held, differ = 0, 0
    for _, seen in [*plays, ("", heavy)]:
        held += sum(words.startswith("yes") for words in seen.values())
        differ += sum(words.startswith("no: ") for words in seen.values())
    if options.page:
        write_page(options.page, members, plays, heavy, missing)
    end(held, differ)


if __name__ == "__main__":
    main()
