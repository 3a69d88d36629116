"""Measures calls of our crates beside plain Rust with the same idea, for the scripts of this folder.

A bench NAME has a program in Rattle (see laid.py) and standin.rs, which is built by rustc -O. Both print a line for each
figure: its name, nanoseconds, and a count that must be 0 (of calls that did another work than was meant). They run in
turn, and the least figure of each stands in the table, with the ratio of the two. Nothing is written in the repository.
"""
import argparse
import os
import pathlib
import subprocess
import sys
import tempfile

from laid import build, build_plain


def figures(program):
    """The nanoseconds that a program prints, by name."""
    ran = subprocess.run([program], capture_output=True, text=True, check=True)
    rows = [line.split() for line in ran.stdout.splitlines()]
    if any(row[2] != "0" for row in rows):
        sys.exit("a call did another work than was meant")
    return {row[0]: int(row[1]) for row in rows}


def measure(name, crates, about):
    """Measures the bench of a name, whose program uses these crates, and prints the table."""
    parser = argparse.ArgumentParser(description=about, formatter_class=argparse.RawDescriptionHelpFormatter)
    parser.add_argument("--runs", type=int, default=8)
    options = parser.parse_args()
    with tempfile.TemporaryDirectory(prefix="bench-") as folder:
        room = pathlib.Path(folder)
        program, stand_in = build(room, name, crates), build_plain(room, name)
        ours, plain = {}, {}
        for _ in range(options.runs):
            for least, path in ((ours, program), (plain, stand_in)):
                for figure, value in figures(path).items():
                    least[figure] = min(value, least.get(figure, value))
    print(f"load {os.getloadavg()[0]:.1f}, {os.cpu_count()} processors; nanoseconds a call")
    for figure, value in ours.items():
        if figure in plain:
            print(f"{figure}: {value}, plain Rust {plain[figure]}, ratio {value / plain[figure]:.2f}")
        else:
            print(f"{figure}: {value}")
