#!/usr/bin/env python3
"""Checks that each wrong program still applies: the edits of must-fail/, which the gate tries, and those of attacks/, which it
doesn't, so that a change of the code would leave them behind unseen.

Of each edit the crate and its files are there, each `old:` text stands in its file just once where its turn comes, and something is
changed. Edits of one crate have different names, also in different folders, since a crate's attacks are tried in one.
"""
import collections
import pathlib

from must_fail import edited, read_edit
from results import end, tell

TOP = pathlib.Path(__file__).resolve().parent.parent
FOLDERS = ("must-fail", "attacks")


def wrong_with(path, crate):
    """What is wrong with an edit of a crate, or None."""
    texts = edited(TOP / "crates" / crate, read_edit(path).changes)
    if isinstance(texts, str):
        return texts
    if all(path.read_text() == text for path, text in texts.items()):
        return "it changes nothing"
    return None


def faults_of(crate):
    """What is wrong with the edits of a crate, which lie in this folder."""
    edits = sorted(crate.rglob("*.edit"))
    names = collections.Counter(it.stem for it in edits)
    wrong = [f"{it.relative_to(TOP)}: {why}" for it in edits if (why := wrong_with(it, crate.name))]
    wrong += [f"{crate.name} has {count} edits of the name {name}" for name, count in names.items() if count > 1]
    return wrong if edits else [f"{crate.relative_to(TOP)} has no edit"]


def check_edits():
    """The result of each folder: its name, and what is wrong with its edits or None."""
    for folder in FOLDERS:
        crates = sorted(it for it in (TOP / folder).iterdir() if it.is_dir())
        wrong = [it for crate in crates for it in faults_of(crate)]
        yield f"edits of {folder}/", "; ".join(wrong) or None


if __name__ == "__main__":
    end(*tell(check_edits()))
