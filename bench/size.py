#!/usr/bin/env python3
"""Measures what the server takes by members and routes, and how soon all members are back after its start.

size.py PROGRAM [--workers N] [--sizes AxB,..]

PROGRAM is a built rs_served. For each size A members come up that connect at once and announce B routes each, as in the work
`internet` of bench.py. Printed are the routes that the server has and tells, the seconds from its start until the last member
has all, and its memory at the peak (VmHWM). It writes nothing in the repository.
"""
import argparse
import json
import os
import pathlib
import subprocess
import sys
import tempfile
import time

from bench import RSLOAD, build

SIZES = "10x2000,10x10000,10x100000,50x400,50x2000,50x10000,200x100,200x500,200x1000"


def run(program, workers, members, routes, room):
    """The seconds from the server's start until all is told, the report of rsload, and what the server printed."""
    words = ["--profile", "internet", "--clients", str(members), "--prefixes", str(routes), "--target", "127.0.0.2:1790", "--dir", room]
    conf = subprocess.run([RSLOAD, "config", "--daemon", "ours", *words], stdout=subprocess.PIPE, check=True)
    (room / "conf").write_bytes(conf.stdout)
    with open(room / "out", "w") as out:
        began = time.monotonic()
        server = subprocess.Popen([*program, "--config", room / "conf", "--workers", str(workers)], stdout=out, stderr=out)
        try:
            while "listening" not in (room / "out").read_text() and server.poll() is None:
                time.sleep(0.01)
            before = time.monotonic() - began
            own = ["--pid", str(server.pid), "--json", room / "report.json", "--phases", "a", "--timeout", "300", "--max-rss-mb", "8000"]
            subprocess.run([RSLOAD, "run", *words, *own], stdout=subprocess.DEVNULL)
        finally:
            server.kill()
            server.wait()
    report = json.loads((room / "report.json").read_text())
    took = report["initial"]["complete_s"]
    return took and before + report["sessions"]["up_s"] + took, report, (room / "out").read_text()


def main():
    parser = argparse.ArgumentParser(description=__doc__, formatter_class=argparse.RawDescriptionHelpFormatter)
    parser.add_argument("program", nargs="+")
    parser.add_argument("--workers", type=int, default=2)
    parser.add_argument("--sizes", default=SIZES)
    options = parser.parse_args()
    build()
    print("| Members | Routes of each | Routes told | Seconds until all are back | Memory, MB |\n|---:|---:|---:|---:|---:|")
    for size in options.sizes.split(","):
        members, routes = map(int, size.split("x"))
        with tempfile.TemporaryDirectory(prefix="size-") as folder:
            seconds, report, _ = run(options.program, options.workers, members, routes, pathlib.Path(folder))
        whole = report["initial"]
        wrong = whole["missing"] + whole["extra"] + whole["altered"]
        back = f"{seconds:.1f}" if seconds and not wrong else f"- ({wrong} routes wrong)"
        print(f"| {members} | {routes:,} | {whole['due']:,} | {back} | {whole['server_peak_mb']:.0f} |", flush=True)
    print(f"\nLoad {os.getloadavg()[0]:.1f} at the end, {os.cpu_count()} processors", file=sys.stderr)


if __name__ == "__main__":
    main()
