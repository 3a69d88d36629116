#!/usr/bin/env python3
"""Makes the man pages of the programs and of their configuration out of the pages of the repository, by pandoc.

man_pages.py FOLDER

Nothing is written twice: each page is some sections of one of ours. The first block of code of a page on a program is its
synopsis; headings below a section are the man page's sections.
"""
import pathlib
import re
import subprocess
import sys

TOP = pathlib.Path(__file__).resolve().parent.parent.parent
OPERATING, REPLAY = "docs/OPERATING.md", "crates/rs_replay/README.md"
# Each man page: its name and section, what it is, and the page and the sections of it that it is made of.
PAGES = (
    ("rs_served", 8, "BGP-4 route server for internet exchanges", OPERATING, ("The live server", "Two servers", "Coming from BIRD", "What is left to the operator")),
    ("rs_served.toml", 5, "configuration of rs_served and rs_replay", OPERATING, ("The configuration",)),
    ("rs_replay", 1, "plays a recorded session to the route server", REPLAY, ("rs_replay: plays a recorded session to the route server",)),
)
# The width that pandoc gives a table, and how much of it leaves room for what stands between columns in a line of 80.
WIDTH, NARROWER = 70, 0.84
# What of a README is for those who change the program.
INWARD = re.compile(r"^`src/main\.rt`.*\n", re.MULTILINE)


def section(text, title):
    """The section of this heading, without its heading, up to the next of its level or above; a README's up to its first section."""
    found = re.search(rf"^(#+) {re.escape(title)}\n", text, re.MULTILINE)
    if not found:
        raise SystemExit(f"no section {title!r}")
    least = max(2, len(found[1]))
    rest = text[found.end() :]
    ends = re.search(rf"^#{{1,{least}}} ", rest, re.MULTILINE)
    return rest[: ends.start() if ends else None].strip("\n") + "\n"


def wide(found):
    """A table whose columns have the room that they need, the widest what is left of it. pandoc takes the widths from the dashes."""
    rows = [re.split(r"(?<!\\)\|", line.strip()[1:-1]) for line in found[0].strip().splitlines()]
    most = [max(len(cell.strip().replace("`", "")) for cell in column) for column in zip(*rows)]
    sizes = [min(30, int(it / NARROWER) + 2) for it in most]
    widest = most.index(max(most))
    sizes[widest] = max(24, WIDTH - sum(sizes) + sizes[widest])
    rows[1] = ["-" * it for it in sizes]
    return "\n".join("|" + "|".join(row) + "|" for row in rows) + "\n"


def page_text(name, about, source, titles):
    """A man page in Markdown."""
    text = (TOP / source).read_text()
    parts = [section(text, it) for it in titles]
    synopsis = ""
    if found := re.match(r"((?:    .*\n)+)\n", parts[0]):
        synopsis = f"# SYNOPSIS\n\n{found[1]}\n"
        parts[0] = parts[0][found.end() :]
    body = f"{name} - {about}\n\n{synopsis}# DESCRIPTION\n\n{parts[0]}\n\n"
    body += "".join(f"# {title}\n\n{it}\n\n" for title, it in zip(titles[1:], parts[1:]))
    others = ", ".join(f"**{it[0]}**({it[1]})" for it in PAGES if it[0] != name)
    body = INWARD.sub("", f"# NAME\n\n{body}# SEE ALSO\n\n{others}\n")
    body = re.sub(r"\[([^\]]+)\]\([^)\s]+\)", r"\1", body)
    body = re.sub(r"^#+ (.*)$", lambda it: "# " + it[1].upper(), body, flags=re.MULTILINE)
    return re.sub(r"(?:^\|.*\n)+", wide, body, flags=re.MULTILINE)


def main():
    folder = pathlib.Path(sys.argv[1])
    folder.mkdir(parents=True, exist_ok=True)
    for name, number, about, source, titles in PAGES:
        words = ["pandoc", "-f", "markdown-smart-tex_math_dollars", "-t", "man", "-s", "-M", f"title={name}", "-V", f"section={number}", "-V", "header=Tivrazel"]
        made = subprocess.run(words, input=page_text(name, about, source, titles), stdout=subprocess.PIPE, text=True, check=True).stdout
        made = re.sub(r"lw\(([\d.]+)n\)", lambda it: f"lw({float(it[1]) * NARROWER:.1f}n)", made)
        (folder / f"{name}.{number}").write_text(made.replace("\n.hy\n", "\n.hy\n.ad l\n", 1))


if __name__ == "__main__":
    main()
