#!/usr/bin/env python3
"""Measures what those who look through the window cost members: watched.py PROGRAM [--runs N]

PROGRAM is a built rs_served. Ten members announce 100,000 routes each (rsload, as for bench.py), then single changes come one at
a time beside the full table. This is played without visitors and with them, in turns. The visitors: one asks for /metrics each
second, one reads all routes of all members again and again, and others, who ask for all routes and read nothing, take what is
left of the sixteen places as soon as they are let in. Printed are how late a single change reaches the last member, without
and with them, and what the visitors were told.
"""
import argparse
import contextlib
import os
import pathlib
import socket
import statistics
import tempfile
import threading
import time

from bench import RSLOAD, build, run
from figures import value
from servers import HOST, servers

PORT = 1792
MEMBERS = 10
DEAF = 16
FIGURES = ("announce_ms_p50", "announce_ms_p99", "withdraw_ms_p50", "withdraw_ms_p99")
WORK = "--profile internet --clients 10 --prefixes {} --phases ab"


def request(target):
    return f"GET {target} HTTP/1.1\r\nHost: {HOST}\r\nConnection: close\r\n\r\n".encode()


def read_whole(target):
    """How many octets are answered, up to the end of the connection."""
    count = 0
    with socket.create_connection((HOST, PORT), timeout=60) as connection:
        connection.sendall(request(target))
        while piece := connection.recv(262144):
            count += len(piece)
    return count


class Visitors:
    """Those who look at the server, in threads of this process."""

    def __init__(self, names):
        self.names, self.over = names, threading.Event()
        self.scrapes, self.octets, self.deaf = [], 0, 0
        works = [self.scrape, self.read, *[self.say_nothing] * DEAF]
        self.threads = [threading.Thread(target=work, daemon=True) for work in works]
        for thread in self.threads:
            thread.start()

    def scrape(self):
        """Asks for the metrics each second, and notes how long it took."""
        while not self.over.wait(1):
            began = time.monotonic()
            with contextlib.suppress(OSError):
                if read_whole("/metrics"):
                    self.scrapes.append(time.monotonic() - began)

    def read(self):
        """Reads the routes of all members, again and again."""
        while not self.over.is_set():
            for name in self.names:
                with contextlib.suppress(OSError):
                    self.octets += read_whole(f"/routes/protocol/{name}")

    def say_nothing(self):
        """Asks for all routes and reads none, until the server closes the connection."""
        while not self.over.wait(0.5):
            with contextlib.suppress(OSError), socket.socket() as connection:
                connection.setsockopt(socket.SOL_SOCKET, socket.SO_RCVBUF, 4096)
                connection.settimeout(5)
                connection.connect((HOST, PORT))
                connection.sendall(request(f"/routes/protocol/{self.names[0]}"))
                self.deaf += 1
                self.over.wait(12)

    def end(self):
        self.over.set()
        for thread in self.threads:
            thread.join(70)


def play(program, room, options, with_visitors):
    """The figures of a run, and what the visitors were told."""
    server = next(servers([program], options.workers))
    inner = server.words
    server.words = lambda folder: [*inner(folder), "--window", f"{HOST}:{PORT}"]
    visitors = Visitors([f"c{k}" for k in range(MEMBERS)]) if with_visitors else None
    load = os.getloadavg()[0]
    try:
        report = run(server, WORK.format(options.prefixes), room, options.changes)
    finally:
        if visitors:
            visitors.end()
    return load, report, visitors


def main():
    parser = argparse.ArgumentParser(description=__doc__, formatter_class=argparse.RawDescriptionHelpFormatter)
    parser.add_argument("program", type=pathlib.Path)
    parser.add_argument("--runs", type=int, default=4)
    parser.add_argument("--workers", type=int, default=1)
    parser.add_argument("--changes", type=int, default=200)
    parser.add_argument("--prefixes", type=int, default=100_000)
    options = parser.parse_args()
    if not RSLOAD.exists():
        build()
    seen = {False: [], True: []}
    for at in range(2 * options.runs):
        with_visitors = at % 2 == 1
        with tempfile.TemporaryDirectory(prefix="bench-") as room:
            os.chmod(room, 0o777)
            load, report, visitors = play(options.program.resolve(), pathlib.Path(room), options, with_visitors)
        single = [value(report, "single", figure) for figure in FIGURES]
        seen[with_visitors].append(single)
        told = ""
        if visitors:
            slowest = max(visitors.scrapes, default=0)
            told = f"; {len(visitors.scrapes)} scrapes, the slowest {slowest:.2f} s, {visitors.octets / 1e6:.0f} MB of routes, {visitors.deaf} who read nothing"
        print(f"load {load:.1f}, {'with' if with_visitors else 'without'} visitors: {single}{told}", flush=True)
    print(", ".join(FIGURES))
    for at, figure in enumerate(FIGURES):
        alone, together = (statistics.median(it[at] for it in seen[key] if it[at] is not None) for key in (False, True))
        print(f"{figure}: {alone:.2f} without, {together:.2f} with, ratio {together / alone:.2f}")


if __name__ == "__main__":
    main()
