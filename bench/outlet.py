#!/usr/bin/env python3
"""Measures an outlet beside plain Rust with the same idea: outlet.py [--runs N]

The program of outlet/ is laid into a copy of the repository as a crate, proved and built there; the stand-in, outlet/standin.rs,
is built by rustc -O. Both run in turn, N times (5 unless said otherwise), and the least figure of each stands in the table, with
the ratio of the two. Both must send as many octets. It writes nothing in the repository.
"""
import argparse
import os
import pathlib
import subprocess
import sys
import tempfile

from laid import build, build_plain

CRATES = ("rs_octets", "rs_attrs", "rs_adjin", "rs_open", "rs_outlet", "rs_policy", "rs_workers")
PREFIXES = 300_000


def figures(program):
    """What a program prints, by name."""
    ran = subprocess.run([program], capture_output=True, text=True, check=True)
    return {name: int(value) for name, value in (line.split() for line in ran.stdout.splitlines())}


def peak(program, word):
    """The most memory of a program that is given this word, in octets."""
    with subprocess.Popen([program, word], stdout=subprocess.DEVNULL) as ran:
        _, status, used = os.wait4(ran.pid, 0)
        ran.returncode = os.waitstatus_to_exitcode(status)
    if ran.returncode:
        sys.exit(f"{program} ended with status {ran.returncode}")
    return used.ru_maxrss * 1024


def main():
    parser = argparse.ArgumentParser()
    parser.add_argument("--runs", type=int, default=5)
    options = parser.parse_args()
    with tempfile.TemporaryDirectory(prefix="bench-") as folder:
        room = pathlib.Path(folder)
        program, stand_in = build(room, "outlet", CRATES, shared=("common",)), build_plain(room, "outlet")
        ours, plain = {}, {}
        for _ in range(options.runs):
            for least, path in ((ours, program), (plain, stand_in)):
                for name, value in figures(path).items():
                    least[name] = min(value, least.get(name, value))
        if ours["octets"] != plain["octets"]:
            sys.exit(f"other octets were sent: {ours['octets']}, and {plain['octets']} by the stand-in")
        of_each = lambda path, word: (peak(path, word) - peak(path, "none")) / 4 / PREFIXES
        memory = [(word, of_each(program, word), of_each(stand_in, word)) for word in ("turns", "whole")]
    print(f"load {os.getloadavg()[0]:.1f}, {os.cpu_count()} processors; the least of {options.runs} runs\n")
    print("| Microseconds for each prefix told to a client, in turns of 1,000 | ours | plain Rust | ratio |\n|---|---:|---:|---:|")
    parts = ("touch", "turn", "fill")
    rows = [(it, ours[it] / 1e6, plain[it] / 1e6) for it in parts]
    rows.append(("together", *(sum(least[it] for it in parts) / 1e6 for least in (ours, plain))))
    rows.append(("a turn of 1,000 while 100,000 wait", ours["waiting"] / 1e6, plain["waiting"] / 1e6))
    for words, one, other in rows:
        print(f"| {words} | {one:.3f} | {other:.3f} | {one / other:.2f} |")
    print("\n| Octets for each client and route, without attributes | ours | plain Rust | ratio |\n|---|---:|---:|---:|")
    names = {"turns": "told in turns of 1,000", "whole": "told in one turn, whose room for what waits is kept"}
    for word, one, other in memory:
        print(f"| {names[word]} | {one:.0f} | {other:.0f} | {one / other:.2f} |")


if __name__ == "__main__":
    main()
