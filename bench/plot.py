"""Draws the figures of docs/BENCH.md by the number of members: what servers take, and how long a single change takes.

The works drawn are those of `internet` with 100,000 prefixes in all: 10 members with 10,000 each, 50 with 2,000, 100 with 1,000, 200
with 500. A server that did not get to its end there has no point. A drawing is SVG with two sets of colours, for a light page and a
dark one.
"""
import collections
import math

from figures import least

WORKS = {10: "internet 10x10k", 50: "internet 50x2k", 100: "internet 100x1k", 200: "internet 200x500"}
# Each server's name, its colours on a light page and on a dark one, the width of its line, and its dashes.
SERVERS = {
    "ours": ("Tivrazel", "#0969da", "#58a6ff", 3, "none"),
    "bird": ("BIRD, one table", "#9a6700", "#d29922", 1.5, "7 3"),
    "bird-tables": ("BIRD, a table each", "#bf3989", "#f778ba", 1.5, "none"),
    "openbgpd": ("OpenBGPD", "#1a7f37", "#3fb950", 1.5, "2 3"),
    "frr": ("FRR", "#57606a", "#afb8c1", 1.5, "9 3 2 3"),
}
# A panel has a column, and another one up to which a thin line goes, or None.
Panel = collections.namedtuple("Panel", "title column upto")
Drawing = collections.namedtuple("Drawing", "title panels")
COST = Drawing(
    "Processor time and memory by the number of members, beside BIRD, OpenBGPD and FRR",
    (Panel("Processor seconds until all hold their tables", "CPU s", None), Panel("Memory at its peak, MB", "peak MB", None)),
)
CHANGE = Drawing(
    "How long a single change takes by the number of members, beside BIRD, OpenBGPD and FRR",
    (Panel("A single announcement until all have it, ms", "one p50 ms", "one p99 ms"), Panel("A single withdrawal until all have it, ms", "gone p50 ms", "gone p99 ms")),
)
WIDE, HIGH, LEFT, TOP, GAP = 330, 220, 52, 66, 72
# How far the first and the last number of members stand from a panel's edges.
EDGE = 16
AXES = "by the number of members, 100,000 prefixes in all; both axes are logarithmic"
UPTO = "dots are the middle of a hundred changes, thin lines go up to the 99th"


def style():
    """The colours, by the page's."""
    colours = lambda at: "".join(f".{name}{{stroke:{them[at]}}}.{name}.at{{fill:{them[at]}}}" for name, them in SERVERS.items())
    light = "text{fill:#1f2328}.grid{stroke:#d1d9e0}" + colours(1)
    dark = "text{fill:#e6edf3}.grid{stroke:#3d444d}" + colours(2)
    return "<style>.title{font-size:14px;font-weight:bold}.tick,.name{font-size:12px}" + light + f"@media (prefers-color-scheme: dark){{{dark}}}</style>"


def points(rows, column, server):
    """Members and figure, of the works that the server came to the end of."""
    for members, work in WORKS.items():
        figure = least(rows, work, server, column)
        if figure and least(rows, work, server, "converged s") is not None:
            yield members, figure


def panel(rows, at, it):
    """One panel: the figures of a column, with logarithmic axes."""
    lines = {server: dict(points(rows, it.column, server)) for server in SERVERS}
    upper = {server: dict(points(rows, it.upto, server)) for server in SERVERS} if it.upto else {}
    values = [value for line in (*lines.values(), *upper.values()) for value in line.values()]
    low, high = math.floor(math.log10(min(values))), math.ceil(math.log10(max(values)))
    left = LEFT + at * (WIDE + GAP)
    x = lambda members: left + EDGE + math.log(members / min(WORKS), max(WORKS) / min(WORKS)) * (WIDE - 2 * EDGE)
    y = lambda value: TOP + HIGH - (math.log10(value) - low) / (high - low) * HIGH
    yield f'<text x="{left}" y="{TOP - 14}" class="title">{it.title}</text>'
    for power in range(low, high + 1):
        yield f'<line x1="{left}" x2="{left + WIDE}" y1="{y(10**power):.1f}" y2="{y(10**power):.1f}" class="grid"/>'
        yield f'<text x="{left - 6}" y="{y(10**power) + 4:.1f}" class="tick" text-anchor="end">{10**power:g}</text>'
    for members in WORKS:
        yield f'<text x="{x(members):.1f}" y="{TOP + HIGH + 18}" class="tick" text-anchor="middle">{members}</text>'
    for place, (server, line) in enumerate(lines.items()):
        name, _, _, width, dashes = SERVERS[server]
        aside = (place - 2) * 4 if it.upto else 0
        way = " ".join(f"{x(members) + aside:.1f},{y(value):.1f}" for members, value in line.items())
        yield f'<polyline points="{way}" fill="none" class="{server}" stroke-width="{width}" stroke-dasharray="{dashes}"/>'
        for members, value in line.items():
            if most := upper.get(server, {}).get(members):
                yield f'<line x1="{x(members) + aside:.1f}" x2="{x(members) + aside:.1f}" y1="{y(value):.1f}" y2="{y(most):.1f}" class="{server}" stroke-width="1"/>'
            yield f'<circle cx="{x(members) + aside:.1f}" cy="{y(value):.1f}" r="{width + 1}" class="{server} at"><title>{name}, {members} members: {value:g}</title></circle>'


def legend():
    """What each line is."""
    at = LEFT
    for server, (name, _, _, width, dashes) in SERVERS.items():
        yield f'<line x1="{at}" x2="{at + 28}" y1="20" y2="20" class="{server}" stroke-width="{width}" stroke-dasharray="{dashes}"/>'
        yield f'<text x="{at + 34}" y="24" class="name">{name}</text>'
        at += 58 + 7.2 * len(name)


def drawing(rows, it, made):
    """The SVG of a drawing, with the day it is of; None where a work that it wants was not played."""
    if any(len(list(points(rows, one.column, "ours"))) < len(WORKS) for one in it.panels):
        return None
    notes = [f"{AXES}; {made}", *[UPTO] * bool(it.panels[0].upto)]
    wide, high = LEFT + 2 * WIDE + GAP + 24, TOP + HIGH + 32 + 16 * len(notes)
    lines = [
        f'<svg xmlns="http://www.w3.org/2000/svg" viewBox="0 0 {wide} {high}" width="{wide}" height="{high}" font-family="sans-serif" role="img">',
        f"<title>{it.title}</title>",
        style(),
        *legend(),
        *(line for at, one in enumerate(it.panels) for line in panel(rows, at, one)),
        *(f'<text x="{LEFT}" y="{TOP + HIGH + 40 + 16 * at}" class="tick">{words}</text>' for at, words in enumerate(notes)),
        "</svg>",
    ]
    return "\n".join(lines) + "\n"
