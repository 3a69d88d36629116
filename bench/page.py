#!/usr/bin/env python3
"""Makes the page of bench.py, and its drawings, of the file of figures that stands beside it.

page.py PAGE

PAGE is docs/BENCH.md: bench.csv beside it is read; bench.svg, bench-change.svg and the page are written.
"""
import collections
import pathlib
import sys

from figures import least, ratio, read, shown
from plot import COST, CHANGE, drawing
from servers import FOUR

# The kinds of works that are played with rules (ruled.py), and `members`, which is the same without.
RULED = {"members": None, "example": "example", "communities": "communities", "rules": "exchange"}
RULES_WORDS = {
    "example": "the rules of `examples/exchange.toml`",
    "communities": "62 rules of communities in each member's export list",
    "rules": "what `tools/exchange.py` writes",
}
RULES_TEXT = """
Ten members with 15,000 prefixes each: `example` with the rules of `examples/exchange.toml`, `rules` with what `tools/exchange.py` writes
(20,000 prefixes and 7,000 AS numbers of each member, as `bench/registered.py` makes them up), `communities` with 62 rules in each
member's export list. All routes pass. BIRD has the same as filters (`bench/ruled.py`); OpenBGPD, FRR and GoBGP are left out.
"""
WORDS = """
## What is played

Clients speak over 127.0.0.0/8, all in one process of two threads (`bench/rsload`), with the same octets for each server.

| Work | Means |
|---|---|
| `packed AxB` | A clients announce B prefixes each, 500 to a set of attributes |
| `internet AxB` | 1 to 5 prefixes to a set; AS_PATH of 2 to 6 four-octet numbers; MED, communities, large communities, AGGREGATOR on some; a fifth of the clients in a four-octet AS |
| `overlap AxB`, `alike AxB` | as `internet`, but three clients announce each prefix, or all do |
| `deaf AxB` | as `internet`, with one client more that reads nothing once it is up |
| `members AxB`, `example AxB`, `communities AxB`, `rules AxB` | as `internet`; all but the first with rules |

After the start (all announce at once) come single changes, one at a time beside the full table; a flap (a client closes its
connection, comes back and announces again); and a late client without routes.

## Columns

- **converged**: from the first UPDATE sent until the last client holds exactly its table; `-`: it never did.
- **CPU**, **CPU in all**: processor seconds of the server and its descendants until then, and over the run.
- **peak MB**: VmHWM of all processes, shared pages counted twice; **held MB**, **behind flap MB**, **behind late MB**: VmRSS once nothing came for 1.5 seconds behind the start, the flap and the late client. **octets/route**: the same by routes due to all clients together. **us/route**: CPU by routes told.
- **wrong**: what clients hold, against the best of the others' routes (RFC 4271, 9.1.2.2; RFC 7947, 2.3.2): missing, not due, not the best, altered (but for the order of attributes and the form of their lengths), or sent back to their sender, whose router drops them for its own AS.
- **one**, **gone**: until the last client has a single announcement, or withdrawal: the middle (p50) and the 99th of a hundred.
- **flap gone**, **back**: from the drop until nobody has its routes, from its first UPDATE after the return until all have. **late**: from Established until the late client has all.

`bird` has one table (a client whose own route is the best is told none), `bird-tables` one for each client (`bench/rsload/src/conf.rs`). Ours is
started with what its unit sets (`examples/rs_served.service`), with one worker; `ours-4` is the same with four.

`overlap` is played three times by ours and BIRD, works with rules and `members` by ours: they take less than a second, of which one run says little.

Times depend on what else runs on the machine: compare rows of one run alone.
"""
BIRDS = {"bird": "BIRD with one table", "bird-tables": "BIRD with a table each"}
# What the page opens with: words and a column.
OPENING = (
    ("until all hold their tables", "converged s"),
    ("processor time until then", "CPU s"),
    ("memory at its peak", "peak MB"),
    ("a single announcement (p50)", "one p50 ms"),
)
# The works by which servers are compared: the greatest of those that were played.
JUDGED = ("internet 10x100k", "internet 10x10k")
# What is wanted of the work by which servers are compared: words, which of ours, the other server, the bound, the phase and a column.
OF_FEW = (
    ("converged no later than BIRD with one table", "ours", "bird", 1.0, "initial", "converged s"),
    ("processor time at most 0.35 of BIRD's with one table", "ours", "bird", 0.35, "initial", "CPU s"),
    ("memory at most 1.5 of BIRD's with one table", "ours", "bird", 1.5, None, "peak MB"),
    ("memory at most half of BIRD's with tables", "ours", "bird-tables", 0.5, None, "peak MB"),
    ("a single announcement (p50) no later than BIRD's", "ours", "bird", 1.0, "single", "one p50 ms"),
    ("a single withdrawal (p50) no later than BIRD's", "ours", "bird", 1.0, "single", "gone p50 ms"),
    ("a flap gone no later than BIRD's", "ours", "bird", 1.0, "flap", "flap gone s"),
    ("by four workers a flap gone in half of BIRD's time", FOUR, "bird", 0.5, "flap", "flap gone s"),
    ("a flap back in a fifth of BIRD's time", "ours", "bird", 0.2, "flap", "back s"),
)
# The same of many members, and of prefixes that several announce, by the works' names.
MANY = ("internet 100x1k", "internet 200x500")
OF_MANY = (
    ("processor time at most 0.25 of BIRD's with one table", "bird", 0.25, "initial", "CPU s"),
    ("a single announcement (p50) no later than BIRD's", "bird", 1.0, "single", "one p50 ms"),
    ("a single announcement (p99) no later than BIRD's with tables", "bird-tables", 1.0, "single", "one p99 ms"),
)
OVERLAP = ("overlap 10x10k",)
OF_OVERLAP = (("processor time at most 0.25 of BIRD's with tables", "bird-tables", 0.25, "initial", "CPU s"),)
# The works and the figures that the page shows; the file beside it has all.
SHOWN_WORKS = ("internet 10x100k", "alike")
SHOWN = ("converged s", "CPU s", "peak MB", "one p50 ms", "flap gone s", "back s", "late s")
# A goal: its words, the work, which of ours, and the phase that it is of, our figure, the other one, and whether it is met (None: not known).
Goal = collections.namedtuple("Goal", "words work server phase ours other is_met")


def judged(rows):
    """The work by which servers are compared, or None."""
    return next((it for it in JUDGED if any(it == row.work and row.is_played for row in rows)), None)


def goal(rows, words, phase, ours, other, column, bound, before=None):
    """A goal of two figures in a column, each of a work and a server; or of two columns, the other one that of `before`."""
    one, two = least(rows, *ours, column), least(rows, *other, before or column)
    return Goal(words, *ours, phase, one, two, None if one is None or two is None else one <= bound * two)


def beside_bird(rows, work):
    """The goals of a few members with large tables."""
    for words, server, other, bound, phase, column in OF_FEW:
        if least(rows, work, server, column) is not None:
            yield goal(rows, words, phase, (work, server), (work, other), column, bound)
    for change, phase in (("a flap", "flap"), ("a late client", "late")) if least(rows, work, "ours", "held MB") else ():
        words = f"memory behind {change} at most 1.1 of that before"
        yield goal(rows, words, phase, (work, "ours"), (work, "ours"), f"behind {phase} MB", 1.1, "held MB")


def of_works(rows):
    """The goals of many members, and of prefixes that several announce."""
    for works, wanted in ((MANY, OF_MANY), (OVERLAP, OF_OVERLAP)):
        for work in works:
            for words, other, bound, phase, column in wanted if least(rows, work, "ours", "CPU s") is not None else ():
                yield goal(rows, f"`{work}`: {words}", phase, (work, "ours"), (work, other), column, bound)


def of_rules(rows):
    """The goals of works with rules, beside the same without."""
    for one, without in with_rules(rows):
        words = RULES_WORDS[one.partition(" ")[0]]
        yield goal(rows, f"with {words}: processor time at most 1.3 of that without", "initial", (one, "ours"), (without, "ours"), "CPU s", 1.3)
        yield goal(rows, f"with {words}: memory at most 1.2 of that without", None, (one, "ours"), (without, "ours"), "peak MB", 1.2)


def goals(rows):
    """Each goal that these rows have figures for."""
    work = judged(rows)
    found = [*(beside_bird(rows, work) if work else ()), *of_works(rows), *of_rules(rows)]
    own = [it for it in rows if it.server.startswith("ours")]
    if own:
        found.append(Goal("no route altered, missing or sent back, in any work", None, None, None, None, None, all(it.wrong == "nothing" for it in own)))
    return found


def with_rules(rows):
    """Each work with rules that was played, with the same without."""
    works = dict.fromkeys(it.work for it in rows)
    without = next((it for it in works if it.startswith("members ")), None)
    return [(it, without) for kind in RULES_WORDS for it in works if without and it.startswith(f"{kind} ")]


def table(rows):
    """The rows of the page's table."""
    yield "| Work | Server | " + " | ".join(SHOWN) + " | wrong |"
    yield "|---|---|" + "---:|" * len(SHOWN) + "---|"
    for it in rows:
        if it.is_played and it.work.startswith(SHOWN_WORKS):
            yield f"| {it.work} | {it.server} | " + " | ".join(it.figures[name] for name in SHOWN) + f" | {it.wrong} |"


def ruled(rows):
    """The figures with rules beside those without."""
    yield "| Work | Server | CPU s without | with rules | ratio | peak MB without | with rules | ratio | wrong |"
    yield "|---|---|" + "---:|" * 6 + "---|"
    for work, without in with_rules(rows):
        for server in dict.fromkeys(it.server for it in rows if it.work == work):
            cells = []
            for column in ("CPU s", "peak MB"):
                before, now = least(rows, without, server, column), least(rows, work, server, column)
                cells += [shown(before), shown(now), shown(ratio(now, before))]
            found = dict.fromkeys(it.wrong for it in rows if it.work == work and it.server == server and it.is_played)
            yield f"| {work} | {server} | " + " | ".join(cells) + f" | {'; '.join(found) or '-'} |"


def faults(rows):
    """What went wrong, and what was not played."""
    absent = {}
    for it in rows:
        if not it.is_played:
            absent.setdefault((it.server, it.faults), []).append(it.work)
        elif it.faults:
            yield f"- {it.work}, {it.server}: {it.faults}"
    for (server, words), works in absent.items():
        yield f"- {', '.join(works)}, {server}: {words}"


def opening(rows):
    """Ours to the two BIRDs, and the drawings."""
    if work := judged(rows):
        members, _, prefixes = work.partition(" ")[2].partition("x")
        yield f"{members} members with {prefixes.replace('k', ',000')} prefixes each (`{work}`), below 1 where ours takes less:"
        yield from ("", "| Ours to | " + " | ".join(BIRDS.values()) + " |", "|---|" + "---:|" * len(BIRDS))
        for words, column in OPENING:
            cells = (ratio(least(rows, work, "ours", column), least(rows, work, it, column)) for it in BIRDS)
            yield f"| {words} | " + " | ".join(shown(it, 2) for it in cells) + " |"
        yield ""
    for name, it in (("bench.svg", COST), ("bench-change.svg", CHANGE)):
        if drawing(rows, it, ""):
            yield from (f"![{it.title}]({name})", "")


def page(about, rows):
    """The whole page."""
    said = dict(about)
    text = ["# Among other route servers", "", *opening(rows)]
    text += [
        f"Made by `make bench` on {said['made']}: {said['machine']}. Ours is {said['build']}. "
        "`bench.csv` beside this page has all works and figures, and the load before each run.",
        "",
        f"Servers: {said['servers']}.",
    ]
    text += [f"Skipped: {words}." for name, words in about if name == "skipped"]
    if found := goals(rows):
        text += ["", "## Goals", "", f"Where no work and no rules are named, of `{judged(rows)}`; the least of each server's runs.", ""]
        text += ["| Goal | ours | other | ratio | |", "|---|---:|---:|---:|---|"]
        for it in found:
            state = "met" if it.is_met else "not known" if it.is_met is None else "**missed**"
            text.append(f"| {it.words} | {shown(it.ours)} | {shown(it.other)} | {shown(ratio(it.ours, it.other), 2)} | {state} |")
    for name in dict.fromkeys(name for name, _ in about if name.startswith("profile of ")):
        text += ["", f"Where ours spends its processor time, by `perf` (clock samples), {name.removeprefix('profile of ')}:", ""]
        text += [f"    {words}" for it, words in about if it == name]
    text += ["", "## Until all hold their tables, and afterwards", "", *table(rows)]
    if with_rules(rows):
        text += ["", "## With rules", RULES_TEXT, *ruled(rows)]
    if alone := [words for name, words in about if name == "lists alone"]:
        text += ["", "Lists alone (`bench/lists.py`):", "", *(f"- {it}" for it in alone)]
    if lines := list(faults(rows)):
        text += ["", "## What went wrong", "", *lines]
    return "\n".join(text) + "\n" + WORDS


def made(path):
    """Writes the page and its drawings."""
    about, rows = read(path.with_name("bench.csv").read_text())
    for name, it in (("bench.svg", COST), ("bench-change.svg", CHANGE)):
        if text := drawing(rows, it, dict(about)["made"]):
            path.with_name(name).write_text(text)
    path.write_text(page(about, rows))


if __name__ == "__main__":
    if len(sys.argv) != 2:
        sys.exit(__doc__)
    made(pathlib.Path(sys.argv[1]))
