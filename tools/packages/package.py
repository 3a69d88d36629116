#!/usr/bin/env python3
"""Makes a Debian package of the proved programs in out/, by debhelper.

package.py [FOLDER]

FOLDER has rs_served and rs_replay, out/ of the repository if missing. The package is put into out/. What is needed:
apt-get install debhelper pandoc. The programs go into it as they were built, but for their tables of symbols.
"""
import pathlib
import shutil
import subprocess
import sys
import tempfile

TOP = pathlib.Path(__file__).resolve().parent.parent.parent
PROGRAMS = ("rs_served", "rs_replay")
# What the package is made of, beside the programs.
PARTS = ("debian", "docs", "examples", "tools", "crates/rs_replay/README.md", "README.md", "CHANGELOG.md", "SECURITY.md", "LICENSE")


def lay_out(room, programs):
    """The source tree of the package: nothing is written into the repository's own."""
    for part in PARTS:
        (room / part).parent.mkdir(parents=True, exist_ok=True)
        copy = shutil.copytree if (TOP / part).is_dir() else shutil.copy
        copy(TOP / part, room / part)
    (room / "out").mkdir()
    for it in PROGRAMS:
        shutil.copy(programs / it, room / "out" / it)
    shutil.copy(TOP / "LICENSE", room / "debian/copyright")
    shutil.copy(TOP / "examples/rs_served.service", room / "debian/tivrazel.rs_served.service")


def loaded(program):
    """What of a program is loaded when it runs: its segments of that kind (PT_LOAD), each as its place and octets."""
    octets = program.read_bytes()
    number = lambda at, size: int.from_bytes(octets[at : at + size], "little")
    start, size, count = number(32, 8), number(54, 2), number(56, 2)
    heads = [start + size * it for it in range(count)]
    return [(number(at + 16, 8), octets[number(at + 8, 8) :][: number(at + 32, 8)]) for at in heads if number(at, 4) == 1]


def differs(room, programs):
    """The programs that would run otherwise than those that were built: their header of sections aside, which is never run."""
    wheres = {"rs_served": "usr/sbin", "rs_replay": "usr/bin"}
    for name, where in wheres.items():
        ours, theirs = loaded(programs / name), loaded(room / "debian/tivrazel" / where / name)
        # The first segment begins with the file's header, which says where the tables of sections are.
        ours[0], theirs[0] = [(it[0], it[1][64:]) for it in (ours[0], theirs[0])]
        if ours != theirs:
            yield name


def main():
    programs = pathlib.Path(sys.argv[1] if len(sys.argv) > 1 else TOP / "out").resolve()
    missing = [it for it in PROGRAMS if not (programs / it).exists()]
    if missing:
        sys.exit(f"{programs} has no {' and no '.join(missing)}: make build makes them")
    if missing := [it for it in ("dh", "pandoc") if not shutil.which(it)]:
        sys.exit(f"{' and '.join(missing)} not found: apt-get install debhelper pandoc")
    (TOP / "out").mkdir(exist_ok=True)
    with tempfile.TemporaryDirectory(prefix="package-") as folder:
        room = pathlib.Path(folder, "tivrazel")
        lay_out(room, programs)
        made = subprocess.run(["debian/rules", "binary"], cwd=room, stdout=subprocess.PIPE, stderr=subprocess.STDOUT, text=True)
        if made.returncode:
            sys.exit(made.stdout + "no package was made")
        if wrong := list(differs(room, programs)):
            sys.exit(f"{', '.join(wrong)} in the package would run otherwise than what was built")
        for it in (room / "out").glob("*.deb"):
            shutil.copy(it, TOP / "out" / it.name)
            print(f"out/{it.name}")


if __name__ == "__main__":
    main()
