#!/usr/bin/env python3
"""Measures from how much on a turn is done sooner by several workers: turns.py PROGRAM [--workers N] [--runs N]

PROGRAM is a built rs_replay. For each number of members, and of prefixes of 24 bits that one of them announces anew before
each turn, a recorded session of many such turns is written, with room for all members after each turn, and played by one
worker and by N (4 unless said otherwise), in turns, each as often as runs say (5). A turn by several workers differs from
one by a single worker in the threads alone, so the difference of the two times, for each turn, is what the threads cost or
save. The least of the runs counts. It writes nothing in the repository.
"""
import argparse
import os
import pathlib
import subprocess
import tempfile
import time

from recorded_session import configuration, message, open_of

MEMBERS = (10, 50, 200)
PREFIXES = (10, 30, 100, 300, 1000, 3000)
# How many routes are told in a session, about: it takes a second or so.
TOLD = 1000000
# As many prefixes as an UPDATE of 4,096 octets holds beside its attributes.
MOST = 1000


def update_of(number, identifier, med, first, prefixes):
    """Announces prefixes from this one on, with a MED of this turn."""
    path = bytes([2, 1]) + number.to_bytes(4, "big")
    attributes = bytes([0x40, 1, 1, 0, 0x40, 2, len(path)]) + path + bytes([0x40, 3, 4]) + identifier + bytes([0x80, 4, 4]) + med.to_bytes(4, "big")
    nlri = b"".join(bytes([24]) + (65536 + first + k).to_bytes(3, "big") for k in range(prefixes))
    return message(2, bytes(2) + len(attributes).to_bytes(2, "big") + attributes + nlri)


def updates_of(number, identifier, med, prefixes):
    """As many UPDATEs as these prefixes want."""
    return [update_of(number, identifier, med, first, min(MOST, prefixes - first)) for first in range(0, prefixes, MOST)]


def write(folder, members, prefixes, turns):
    """Writes the configuration and the session; answers how many octets are heard before each turn."""
    names, keepalive = configuration(folder, members), message(4, b"")
    identifiers = [bytes([192, 0, 2, 11 + k]) for k in range(members)]
    with open(folder / "full.trace", "w") as trace:
        for k, name in enumerate(names):
            trace.write(f"open {name}\noctets {name} {(open_of(64501 + k, identifiers[k]) + keepalive).hex()}\nroom {name} 1000\n")
        rooms = "".join(f"room {name} 10000000\n" for name in names)
        for med in range(turns):
            heard = updates_of(64501, identifiers[0], med, prefixes)
            trace.write("".join(f"octets {names[0]} {update.hex()}\n" for update in heard) + "turn\n" + rooms)
    return sum(map(len, heard))


def play(program, folder, workers):
    """The seconds that it took."""
    words = [program, "--config", folder / "full.toml", "--workers", str(workers)]
    with open(folder / "full.trace") as trace:
        began = time.monotonic()
        subprocess.run(words, stdin=trace, stdout=subprocess.DEVNULL, check=True)
        return time.monotonic() - began


def main():
    parser = argparse.ArgumentParser(description=__doc__, formatter_class=argparse.RawDescriptionHelpFormatter)
    parser.add_argument("program", type=pathlib.Path)
    parser.add_argument("--workers", type=int, default=4)
    parser.add_argument("--runs", type=int, default=5)
    options = parser.parse_args()
    program, load = options.program.resolve(), os.getloadavg()[0]
    print(f"{os.cpu_count()} processors, load {load:.1f} before; the least of {options.runs} runs, microseconds a turn with all that belongs to it\n")
    print(f"| Members | prefixes anew | octets heard | 1 worker | {options.workers} workers | threads save |\n|---:|---:|---:|---:|---:|---:|")
    for members in MEMBERS:
        for prefixes in PREFIXES:
            turns = min(3000, max(20, TOLD // (members * prefixes)))
            with tempfile.TemporaryDirectory(prefix="bench-") as name:
                folder = pathlib.Path(name)
                octets = write(folder, members, prefixes, turns)
                runs = [[play(program, folder, workers) for workers in (1, options.workers)] for _ in range(options.runs)]
            alone, together = (min(it) / turns * 1e6 for it in zip(*runs))
            print(f"| {members} | {prefixes} | {octets} | {alone:.0f} | {together:.0f} | {alone - together:.0f} |", flush=True)


if __name__ == "__main__":
    main()
