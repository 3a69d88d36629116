#!/usr/bin/env python3
"""Tries the wrong programs of must-fail/: the prover must refuse each.

must_fail.py [--unchanged] [CRATE | CRATE/NAME ..]

must-fail/CRATE has edits, NAME.edit: a line `file:` and pairs of lines `old:` and `new:`, as those of attacks/, and a
line `function:`, which names a function whose contract the edited crate breaks. This function, with those that it calls, is
checked in an edited copy of the crate, over the libraries that `rt ci` left in crates/*/out: so an edit costs a check of
a few functions, and not one of the crate. It is refused where the prover says that this very function is not proved, and not
only since a proof names what is no longer there. That it is proved without the edit, `rt ci` says of the whole crate;
`--unchanged` says it of the functions alone.

The last line is 'N passed, M failed'; the exit status is 0 where nothing failed. It writes nothing in the repository.
"""
import collections
import concurrent.futures
import os
import pathlib
import re
import shutil
import subprocess
import sys
import tempfile

from results import end, tell

TOP = pathlib.Path(__file__).resolve().parent.parent
EDITS = TOP / "must-fail"

# What is said of a proof that names something which the edited function no longer has.
GONE = re.compile(r"^proofs/.*(has no field|is not in scope|has no `)")

# An edit: its crate, its name, the function that it breaks, and each file with the pairs of texts to change in it.
Edit = collections.namedtuple("Edit", "crate name function changes")


def read_edit(path):
    """The edit that this file has."""
    function, file, old, changes = None, None, None, []
    for line in path.read_text().splitlines():
        word, _, text = line.partition(": ")
        if word == "function":
            function = text
        elif word == "file":
            file = text
        elif word == "old":
            old = text
        elif word.rstrip(":") == "new":
            changes.append((file, old, text))
    return Edit(path.parent.name, path.stem, function, changes)


def edits_of(names):
    """The edits that are named, by CRATE or CRATE/NAME; all of them where nothing is."""
    every = [read_edit(it) for it in sorted(EDITS.glob("*/*.edit"))]
    return [it for it in every if not names or it.crate in names or f"{it.crate}/{it.name}" in names]


def edited(folder, changes):
    """The texts that these changes leave of the files of the crate in this folder, by path; or what is wrong with them."""
    texts = {}
    for file, old, new in changes:
        path = folder / (file or "")
        if not path.is_file():
            return f"there is no file {file}"
        text = texts[path] if path in texts else path.read_text()
        count = text.count(old) if old else 0
        if count != 1:
            return f"an `old:` text is in {file} {count} times, and not once: {old}"
        texts[path] = text.replace(old, new)
    return texts


def apply(edit, folder):
    """Changes the crate in this folder; what is wrong with the edit, or None."""
    if not edit.function or not edit.changes:
        return "it names no function, or changes nothing"
    texts = edited(folder, edit.changes)
    if isinstance(texts, str):
        return texts
    for path, text in texts.items():
        path.write_text(text)
    return None


def libraries():
    """The libraries that each crate of the repository names, its own and the kit's."""
    lines = (it.partition("#")[0].split(":") for it in (TOP / "crates.txt").read_text().splitlines())
    return {it[0].split()[0]: it[1].split() for it in lines if len(it) == 2}


def below(crate, named):
    """All crates of the repository that a crate stands on."""
    own = [it for it in named[crate] if it in named]
    return {*own, *(it for lower in own for it in below(lower, named))}


def words_for(crate, root, kit):
    """The words by which the prover reads a crate over its libraries."""
    named = libraries()
    rlib = lambda name: TOP / f"crates/{name}/out/rlib/{name}.rlib" if name in named else kit / f"rlibs/{name}.rlib"
    words = ["--crate-name", crate, root]
    for name in ("std", *named[crate]):
        words += ["--extern", f"{name}={rlib(name)}"]
    for folder in (kit / "rlibs", *(rlib(it).parent for it in sorted(below(crate, named)))):
        words += ["-L", f"dependency={folder}"]
    words += ["--antt-project", str(kit / "rattle/logic/antt-project.json"), "--logic-built", str(kit / "logic_built")]
    return words + ["--links", f"{crate}=", "--jobs", "1"]


def check(edit, changed, kit):
    """Checks the function that an edit names, in a copy of its crate: the exit status, and what the prover said; or
    what is wrong with the edit."""
    with tempfile.TemporaryDirectory(prefix="must-fail-") as room:
        room = pathlib.Path(room)
        for part in ("src", "specs", "proofs"):
            if (TOP / "crates" / edit.crate / part).is_dir():
                shutil.copytree(TOP / "crates" / edit.crate / part, room / part)
        if changed and (wrong := apply(edit, room)):
            return None, wrong
        root = "src/main.rt" if (room / "src/main.rt").exists() else "src/lib.rt"
        words = [str(kit / "bin/rattle"), "check", *words_for(edit.crate, root, kit), "--only", edit.function]
        ran = subprocess.run(words, cwd=room, stdout=subprocess.PIPE, stderr=subprocess.STDOUT, text=True, errors="replace")
        return ran.returncode, ran.stdout


def unchanged_wrong(edit, kit):
    """What is wrong with the function as it stands, or None."""
    status, said = check(edit, False, kit)
    return None if status == 0 else f"not proved without the edit: {said.strip()[-300:]}"


def edited_wrong(edit, kit):
    """What is wrong with an edit, or None where the prover refuses the function for what it does."""
    status, said = check(edit, True, kit)
    if status is None:
        return said
    if status == 0:
        return "NOT REFUSED: the function is still proved"
    if not re.search(r"^only=\d+ proved=\d+$", said, re.MULTILINE) or re.search(r"^(\./)?(src|specs)/\S+: error", said, re.MULTILINE):
        return f"the prover cannot read the edited text: {said.strip()[-300:]}"
    name = re.escape(edit.function)
    if not re.search(rf"^fn {edit.crate}::(\S*::)?{name}: no(t proved| proof)", said, re.MULTILINE):
        return f"the prover does not say that {edit.function} is not proved: {said.strip()[-300:]}"
    faults = re.findall(r"^(?:note: )?(?:\./)?((?:src|specs|proofs)/\S+:\d+:\d+: .*)", said, re.MULTILINE)
    if faults and all(GONE.search(it) for it in faults):
        return f"refused only since a proof names what the edit took away: {faults[0]}"
    return None


def play_edits(names=(), count=None, wrong_with=edited_wrong):
    """The result of each edit that is named, or of all; so many are tried side by side."""
    edits = edits_of(names)
    yield from ((it, "there is no such edit") for it in names if not any(it in (e.crate, f"{e.crate}/{e.name}") for e in edits))
    kit = pathlib.Path(subprocess.run(["rt", "doc"], capture_output=True, text=True, check=True).stdout.strip()).parent
    with concurrent.futures.ThreadPoolExecutor(count or len(os.sched_getaffinity(0))) as pool:
        for edit, wrong in zip(edits, pool.map(lambda it: wrong_with(it, kit), edits)):
            yield f"must-fail {edit.crate}/{edit.name}", wrong


if __name__ == "__main__":
    words = sys.argv[1:]
    changed = "--unchanged" not in words
    chosen = [it for it in words if it != "--unchanged"]
    end(*tell(play_edits(chosen, wrong_with=edited_wrong if changed else unchanged_wrong)))
