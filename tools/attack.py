#!/usr/bin/env python3
"""Tries wrong programs that the prover must refuse, beyond those that the gate tries.

attack.py [CRATE | CRATE/NAME ..]

attacks/CRATE, with its folders, has edits, NAME.edit: a text of the crate and what
stands in its place. Each crate is proved first as it is, since an edit of a crate that isn't proved shows nothing; then
each of its edits must be refused, by whatever function. All is done in a copy of the repository outside it, in which the attacks
stand in a folder must-fail of their crate, the one that `rt must-fail` reads. Crates are tried side by side,
as many as there are processors (`taskset -c 0 tools/attack.py` takes one).

It ends with the edits that were not refused and those that no longer apply, and 'N passed, M failed'; the
exit status is 0 where nothing failed. It writes nothing in the repository.
"""
import concurrent.futures
import os
import pathlib
import re
import shutil
import subprocess
import sys
import tempfile

TOP = pathlib.Path(__file__).resolve().parent.parent
RESULT = re.compile(r"rt: must-fail (\S+)\.edit: (?:(refused)|(NOT REFUSED|BAD EDIT): (.*))")


def edits_of(top, crate, names):
    """The attacks on a crate that are named, by CRATE or CRATE/NAME; all of them where nothing is."""
    found = sorted((top / "attacks" / crate).rglob("*.edit"))
    return [it for it in found if not names or crate in names or f"{crate}/{it.stem}" in names]


def copy_repository(room, names):
    """Copies the repository, with what earlier checks kept, and puts each crate's attacks beside it."""
    shutil.copytree(TOP, room, ignore=shutil.ignore_patterns(".git", "__pycache__"))
    for attacks in (room / "attacks").iterdir():
        crate = room / "crates" / attacks.name
        if crate.is_dir():
            (crate / "must-fail").mkdir()
            for it in edits_of(room, attacks.name, names):
                shutil.copy(it, crate / "must-fail")


def run(words, folder):
    """Runs a command of rt; answers whether it ended well, and what it said."""
    ran = subprocess.run(["rt", *words], cwd=folder, capture_output=True, text=True, errors="replace")
    return ran.returncode == 0, ran.stdout + ran.stderr


def tries(room, crate, names):
    """Tries a crate's attacks: each by its name, and what is wrong with it or None."""
    said = run(["must-fail", crate], room)[1]
    print(said, end="", flush=True)
    found = {}
    for name, refused, verdict, why in RESULT.findall(said):
        found[name] = None if refused else f"{'not refused' if verdict == 'NOT REFUSED' else 'no longer applies'}: {why}"
    tried = [f"{crate}/{it.stem}" for it in edits_of(room, crate, names)]
    return {name: found.get(name, "not tried") for name in tried}


def attack(room, crates, names):
    """Tries the attacks on these crates: each by its name, and what is wrong with it or None."""
    results, proved = {}, []
    for crate in crates:
        # One after the other, since crates share the libraries that they stand on.
        is_proved, said = run(["check"], room / "crates" / crate)
        print(f"{crate} is {'proved' if is_proved else 'NOT PROVED'} as it is", flush=True)
        print("".join(f"{it}\n" for it in said.splitlines() if "cannot be applied" in it), end="", flush=True)
        if is_proved:
            proved.append(crate)
        else:
            results[crate] = "not proved as it is:\n" + "\n".join(said.splitlines()[-10:])
    with concurrent.futures.ThreadPoolExecutor(len(os.sched_getaffinity(0))) as pool:
        for tried in pool.map(lambda crate: tries(room, crate, names), proved):
            results.update(tried)
    return results


def main(names):
    if not shutil.which("rt"):
        sys.exit("rt, the command of the Rattle toolchain, is not on the PATH")
    known = sorted(it.name for it in (TOP / "attacks").iterdir() if it.is_dir())
    crates = sorted({it.partition("/")[0] for it in names} or known)
    lost = [it for it in {*known, *crates} if it not in known or not (TOP / "crates" / it).is_dir()]
    results = {it: "no attacks, or no crate of this name" for it in lost}
    crates = [it for it in crates if it not in lost]
    there = {f"{crate}/{it.stem}" for crate in crates for it in edits_of(TOP, crate, names)}
    results |= {it: "no such edit" for it in names if "/" in it and it not in there}
    with tempfile.TemporaryDirectory(prefix="attack-") as folder:
        room = pathlib.Path(folder) / "copy"
        copy_repository(room, names)
        results.update(attack(room, crates, names))
    wrong = {name: why for name, why in results.items() if why}
    for name, why in sorted(wrong.items()):
        print(f"FAILED: {name}: {why}")
    print(f"{len(results) - len(wrong)} passed, {len(wrong)} failed")
    return 1 if wrong or not results else 0


if __name__ == "__main__":
    sys.exit(main(sys.argv[1:]))
