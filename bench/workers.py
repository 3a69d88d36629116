#!/usr/bin/env python3
"""Measures a turn of ten outlets by 1, 2 and 4 workers: workers.py [--runs N]

The program of workers/ is laid into a copy of the repository as a crate, proved and built there. It runs N times (5 unless said
otherwise), and the least figure of each stands in the table: milliseconds by the wall, and the ratio to one worker. It writes
nothing in the repository.
"""
import argparse
import os
import pathlib
import subprocess
import tempfile

from laid import build

CRATES = ("rs_octets", "rs_attrs", "rs_adjin", "rs_open", "rs_outlet", "rs_policy", "rs_workers")
NAMES = {"whole": "over all 100,000 prefixes", "changed": "after 1,000 changed routes"}


def main():
    parser = argparse.ArgumentParser()
    parser.add_argument("--runs", type=int, default=5)
    options = parser.parse_args()
    least = {}
    with tempfile.TemporaryDirectory(prefix="bench-") as folder:
        program = build(pathlib.Path(folder), "workers", CRATES, shared=("common",))
        for _ in range(options.runs):
            for line in subprocess.run([program], capture_output=True, text=True, check=True).stdout.splitlines():
                name, workers, taken = line.split()
                key = name, int(workers)
                least[key] = min(int(taken), least.get(key, int(taken)))
    print(f"load {os.getloadavg()[0]:.1f}, {os.cpu_count()} processors; ten outlets of 100,000 prefixes each, the least of {options.runs} runs")
    print("\n| A turn | 1 worker | 2 workers | 4 workers |\n|---|---:|---:|---:|")
    for name, words in NAMES.items():
        one = least[name, 1]
        figures = " | ".join(f"{least[name, it] / 1e6:.0f} ms ({one / least[name, it]:.2f})" for it in (1, 2, 4))
        print(f"| {words} | {figures} |")


if __name__ == "__main__":
    main()
