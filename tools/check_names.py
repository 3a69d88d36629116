#!/usr/bin/env python3
"""Checks that what the pages name is there.

It reads each page (README.md, CONTRIBUTING.md and the others at the top, docs, the READMEs of crates, .github) and looks at
what stands in backticks, and at links. By its shape a word there is
- a file or a folder (`specs/Due.antt`, `must-fail/`): one of the repository has this path, or ends with it. In a crate's README
  one in src, specs or proofs is that crate's, or of a crate that the same line names;
- a crate (`rs_core`);
- a target of the Makefile (`make test`);
- an option (`--reload`, `out/rs_served --reload`): a program of ours, a tool or a benchmark has it;
- a name (`due_to`, `IsTold`, `strip`): it stands as a word in the code, the definitions, the proofs, the tools or the examples,
  and not in a comment alone. Of `Core::new` or `laws::bests_are_unbeaten` a file that is of the first has the second.
Words of other shapes (numbers, octets, texts, commands of others) are passed over, but for files and crates in them.
"""
import os
import pathlib
import re

from results import end, tell

TOP = pathlib.Path(__file__).resolve().parent.parent
PAGES = ("*.md", "docs/*.md", "crates/*/README.md", ".github/**/*.md", ".github/**/*.yml")
CODE = ("crates/*/src/**/*.rt", "crates/*/specs/**/*.antt", "crates/*/proofs/**/*.antt")
OTHERS = ("tools/**/*.py", "tools/**/*.c", "tools/demo", "bench/**/*.py", "bench/**/*.rs", "examples/*", "Makefile", "crates.txt")
BUILT = {"out", "target", ".git", "__pycache__"}

FILE = re.compile(r"[\w.*/-]*\.(?:rt|antt|py|md|toml|trace|out|conf|service|txt|rs|c|yml)")
FOLDER = re.compile(r"[\w.*-]+(?:/[\w.*-]+)*/")
CRATE = re.compile(r"rs_[a-z_]+")
OPTION = re.compile(r"--[a-z][a-z-]*")
NAME = re.compile(r"[A-Za-z_]\w*(?:::[A-Za-z_]\w*)*")
ARGUMENTS = re.compile(r"(?:<[^>]*>)?(?:\([^()]*\))?$")
LINK = re.compile(r"\[[^\]]+\]\(([^)\s]+)\)")

# Words of the shapes above that name nothing of ours, by page ('' is each page), with what they are.
STRANGERS = {
    "": {
        "dpkt": "a library for captures", "bird": "a daemon", "nohup": "a command of the system", "ulimit": "a command of the shell",
        "logrotate": "a program", "diff": "a command", "git": "a command", "systemctl": "a command", "journalctl": "a command",
        "bin/": "a folder of the toolchain", "out/": "where programs are built", "rs_served.toml": "the operator's configuration", "--help": "clap gives it to each program",
    },
    "docs/REPLAY.md": dict.fromkeys(
        ("exchange.pcap", "exchange.toml", "exchange.trace", "exchange.sent", "exchange.due", "day.toml", "day.1.toml"), "a file that the reader makes"
    ),
}


def tree():
    """The files of the repository, but for what is built: their paths as texts."""
    files = []
    for folder, below, names in os.walk(TOP):
        below[:] = [it for it in below if it not in BUILT]
        files += [pathlib.Path(folder, it).relative_to(TOP).as_posix() for it in names]
    return files


def without_comments(file):
    """A file's text without what stands behind a mark of a comment."""
    mark = {".rt": r"//.*", ".antt": r"--(?: .*|$)", ".rs": r"//.*"}.get(file.suffix, r"^\s*#.*")
    return re.sub(mark, "", file.read_text(errors="replace"), flags=re.MULTILINE)


class Tree:
    """What there is to be named."""

    def __init__(self):
        self.files = tree()
        self.folders = {"/".join(it.split("/")[:n]) + "/" for it in self.files for n in range(1, it.count("/") + 1)}
        self.crates = {it.name for it in (TOP / "crates").iterdir() if it.is_dir()}
        self.targets = set(re.findall(r"^([a-z]+):", (TOP / "Makefile").read_text(), re.MULTILINE))
        found = {it for pattern in CODE + OTHERS for it in TOP.glob(pattern)}
        read = sorted(it for it in found if it.is_file() and it != pathlib.Path(__file__).resolve())
        texts = {it: without_comments(it) for it in read}
        self.code = {it: text for it, text in texts.items() if it.suffix == ".rt"}
        self.known = {word for text in texts.values() for word in re.findall(r"\w+", text)}
        self.known |= {part.partition(".")[0] for it in self.files for part in it.split("/")}
        self.options = "\n".join(it.read_text() for it in read if it.suffix == ".py" or "rs_command" in it.parts)

    def has_path(self, path, crate, line):
        """Whether this is a file or a folder, by its whole path or its end."""
        path = re.sub(r"\b(?:NAME|CRATE|FILE)\b", "*", path)
        ends = re.compile(r"(?:.*/)?" + re.escape(path).replace(r"\*", "[^/]*"))
        found = [it for it in (self.folders if path.endswith("/") else self.files) if ends.fullmatch(it)]
        if crate and re.match(r"(src|specs|proofs)/", path):
            named = {crate, *CRATE.findall(line)}
            found = [it for it in found if it.split("/")[1:2] and it.split("/")[1] in named]
        return bool(found)

    def has_option(self, word):
        """Whether one of our programs has this option. Those of rs_command are words without their hyphens."""
        return re.search(rf'{word}(?![\w-])|"{word[2:]}"', self.options)

    def has_name(self, name):
        """Whether this is a name of the code; of two, the second stands in a file that is of the first or declares it."""
        *_, owner, last = ["", *name.split("::")]
        if not owner:
            return last in self.known
        declares = re.compile(rf"\b(?:struct|enum|trait|type|impl)\b[^;{{]*\b{owner}\b")
        has = re.compile(rf"\b{last}\b" if last[0].isupper() else rf"\b(?:fn|mod|const) {last}\b")
        return any(
            has.search(text) and (owner in (it.stem, it.parts[-3]) or declares.search(text)) for it, text in self.code.items()
        )


def wrong_with(there, text, crate, line):
    """The words of this text that name something that is not there."""
    words = text.split()
    if len(words) > 1 and words[0] == "make":
        return [] if words[1] in there.targets or not words[1].isalpha() else [text]
    missing = []
    if len(words) == 1:
        words = [ARGUMENTS.sub("", words[0])]
    for word in words:
        word = word.strip(",;:\"'()[]{}")
        if word.startswith(("/", "-")) and not word.startswith("--") or "://" in word:
            continue
        if FILE.fullmatch(word) and not word.startswith(".") or FOLDER.fullmatch(word):
            if not there.has_path(word, crate, line):
                missing.append(word)
        elif CRATE.fullmatch(word):
            if word not in there.crates and not there.has_name(word):
                missing.append(word)
        elif OPTION.fullmatch(word) and (words[0] == word or words[0].startswith(("out/", "tools/", "bench/", "rs_"))):
            if not there.has_option(word):
                missing.append(word)
        elif len(words) == 1 and NAME.fullmatch(word) and not word.isupper():
            if not there.has_name(word):
                missing.append(word)
        elif "_" in word and re.fullmatch(r"[a-z]+(?:_[a-z0-9]+)+", word) and not there.has_name(word):
            missing.append(word)
    return missing


def anchors(text):
    """The headings of a page as links name them."""
    return {re.sub(r"[^\w\- ]", "", it.lower()).strip().replace(" ", "-") for it in re.findall(r"^#+ (.*)", text, re.MULTILINE)}


def is_linked(page, target):
    """Whether a link's target is there: a file beside this page or the page itself, and the heading in it."""
    file, _, heading = target.partition("#")
    other = page.parent / file if file else page
    return "://" in target or other.exists() and (not heading or heading in anchors(other.read_text()))


def misses(there, page):
    """How many names a page has, and those that aren't there, each with its line."""
    name, text = page.relative_to(TOP).as_posix(), page.read_text()
    crate = page.parent.name if page.parent.parent.name == "crates" else None
    strangers = {**STRANGERS[""], **STRANGERS.get(name, {})}
    count, missing, fenced = 0, [], False
    for number, line in enumerate(text.splitlines(), 1):
        fenced ^= line.lstrip().startswith("```")
        if fenced or line.startswith("    "):
            continue
        named = re.findall(r"`([^`]+)`", line)
        targets = LINK.findall(re.sub(r"`[^`]*`", "", line))
        count += len(named) + len(targets)
        missing += [(number, it) for words in named for it in wrong_with(there, words, crate, line) if it not in strangers]
        missing += [(number, it) for it in targets if not is_linked(page, it)]
    return count, missing


def check_pages():
    """Each page with what it names, or each name of it that isn't there."""
    there = Tree()
    for page in sorted({it for pattern in PAGES for it in TOP.glob(pattern)}):
        count, missing = misses(there, page)
        name = page.relative_to(TOP).as_posix()
        if not missing:
            yield f"{name}, {count} names", None
        for line, word in missing:
            yield f"{name}, line {line}, {word}", "nothing in the repository has this name"


if __name__ == "__main__":
    end(*tell(check_pages()))
