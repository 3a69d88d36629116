"""The page of hostile.py: a verdict for each row that was played, and which build it is of."""
import datetime
import os
import platform

from .table import FLOOD_SLACK, ROWS, SHORT_SLACK, SLACK

INTRODUCTION = """
What a member with nothing but valid octets, a stranger or an accident can do to others' sessions and to the time that they wait.
Each attack is played on loopback to the built server, and to BIRD and OpenBGPD where they take it. A row is missed where the server
twice doesn't do what stands under "To be". `hostile.csv` has what was seen of each server, and of a missed row where the time went.
"""
WORDS = f"""
## What the words mean

- **A change waits**: one of two members changes a prefix some twenty times a second (beside `--reload` as often as it can), and the other waits for it, from when the first writes the UPDATE.
- **Lost**: the session ended, by the NOTIFICATION that the member was sent or by the connection's end alone.
- **Load**: the load average of one minute when the row began; above four the server waits for a processor too. A change may wait {SLACK:g} s longer than "To be" says ({FLOOD_SLACK:g} s in row b, {SHORT_SLACK:g} s in rows e, i and n).
"""


def verdict(it):
    if it.missed:
        return "**missed**"
    return "held" + (" when played once more" if it.times != "1" else "")


def builds(played):
    """Each build and day, with the letters of the rows that are of it."""
    found = {}
    for row, it in played:
        found.setdefault((datetime.date.fromisoformat(it.day), it.build), []).append(row.letter)
    for (day, build), letters in sorted(found.items()):
        yield f"- {day.day} {day:%B %Y}, {build}: {', '.join(letters)}."


def page(kept, targets):
    """The whole page, of the rows that were played."""
    machine = f"{platform.processor() or platform.machine()}, {os.cpu_count()} processors, {platform.system()}"
    played = [(row, kept.rows[row.letter][0]) for row in ROWS if row.letter in kept.rows]
    text = ["# Hostile members, and accidents", ""]
    text += [f"Made by `make hostile`: {machine}.", INTRODUCTION]
    text += ["Servers: " + ", ".join(f"{it.name} ({it.version()})" for it in targets.values() if not it.missing) + "."]
    text += [f"Skipped: {it.name} {it.missing}." for it in targets.values() if it.missing]
    text += ["", "## Verdicts", "", "| | Attack or accident | To be | Verdict | Load |", "|---|---|---|---|---:|"]
    text += [f"| {row.letter} | {row.attack} | {row.wanted} | {verdict(it)} | {it.load} |" for row, it in played]
    text += ["", "By day and build of ours:", "", *builds(played)]
    if others := [row.letter for row in ROWS if row.letter not in kept.rows]:
        text += ["", f"Not played (`tools/hostile/table.py` has what they are): {', '.join(others)}."]
    return "\n".join(text) + "\n" + WORDS
