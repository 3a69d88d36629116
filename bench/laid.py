"""Lays a program of this folder into a copy of the repository as a crate, proves and builds it there.

A program NAME has a folder NAME with NAME.rt.txt and, where it needs them, its proofs as proofs/**/*.antt.txt: files of
Rattle stand in crates alone, so these have another suffix here. Programs may share a module, the folder common/.
Nothing is written in the repository.
"""
import pathlib
import shutil
import subprocess
import sys

HERE = pathlib.Path(__file__).resolve().parent
TOP = HERE.parent
SUFFIX = ".txt"


def needed(wanted):
    """The lines of crates.txt of these crates and of all that they stand on."""
    lines = [line for line in (TOP / "crates.txt").read_text().splitlines() if ":" in line and not line.startswith("#")]
    uses = {line.partition(":")[0]: line.partition(":")[2].split() for line in lines}
    left, found = list(wanted), set()
    while left:
        name = left.pop()
        if name in uses and name not in found:
            found.add(name)
            left += uses[name]
    return [line for line in lines if line.partition(":")[0] in found]


def lay_source(source, there):
    """Copies a file of Rattle without its other suffix. A lemma file names the crate that it belongs to."""
    there.parent.mkdir(parents=True, exist_ok=True)
    crate = next(part for part in there.parts if part.startswith("bench_"))
    there.write_text(source.read_text().replace("Rattle.BENCH.", f"Rattle.{crate}."))


def lay(room, name, crates, shared=()):
    """Copies the crates with what earlier checks kept, and adds the program with the modules that it shares."""
    lines = needed(crates)
    for line in lines:
        crate = line.partition(":")[0]
        shutil.copytree(TOP / "crates" / crate, room / "crates" / crate, ignore=shutil.ignore_patterns("incremental"))
    crate = room / "crates" / f"bench_{name}"
    lay_source(HERE / name / f"{name}.rt{SUFFIX}", crate / "src" / "main.rt")
    for module in shared:
        lay_source(HERE / module / f"{module}.rt{SUFFIX}", crate / "src" / f"{module}.rt")
    for part, inside in ((name, "."), *((module, module) for module in shared)):
        proofs = HERE / part / "proofs"
        for proof in sorted(proofs.rglob(f"*.antt{SUFFIX}")):
            lay_source(proof, crate / "proofs" / inside / proof.relative_to(proofs).with_suffix(""))
    (room / "crates.txt").write_text("\n".join([*lines, f"bench_{name}: {' '.join((*crates, 'anyhow'))}"]) + "\n")
    if (TOP / "HANDLES").exists():
        shutil.copy(TOP / "HANDLES", room / "HANDLES")
    return crate


def build(room, name, crates, shared=()):
    """Proves and builds the program, and answers its path."""
    crate = lay(room, name, crates, shared)
    ran = subprocess.run(["rt", "run"], cwd=crate, capture_output=True, text=True, errors="replace")
    program = crate / "out" / crate.name
    if not program.exists():
        sys.exit(f"the program was not built:\n{ran.stdout[-3000:]}{ran.stderr[-3000:]}")
    return program


def build_plain(room, name):
    """Builds the stand-in in plain Rust, and answers its path."""
    path = room / "standin"
    subprocess.run(["rustc", "-O", "-Ctarget-cpu=x86-64-v2", "-o", path, HERE / name / "standin.rs"], check=True)
    return path
