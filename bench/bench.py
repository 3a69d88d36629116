"""Measures a built rs_served among other route servers under the same load, one after the other.

bench.py PROGRAM [--full] [--page FILE] [--servers NAME,..] [--works WORD,..] [--workers N] [--runs N] [--divide N] [--build TEXT]

The load is played by rsload (bench/rsload, Rust, built by cargo without a network). Each server is a process on loopback
addresses with a configuration that rsload writes. What is not installed is skipped with a word. FILE is made anew by page.py, with a
profile of ours where a goal was missed; bench.csv beside it has all figures. --full plays all works, also those with rules
(ruled.py), by BIRD too, and the greatest by ours with four workers. --divide plays each work with so many times fewer prefixes, to try it. TEXT says which build PROGRAM is.
"""
import argparse
import collections
import datetime
import json
import os
import pathlib
import platform
import shutil
import signal
import socket
import subprocess
import sys
import tempfile
import threading
import time

from figures import Row, row, written
from lists import measured
from page import JUDGED, RULED, goals, made
from ruled import KINDS
from servers import FOUR, HOST, PORT, servers

HERE = pathlib.Path(__file__).resolve().parent
BUILT = HERE.parent / "out" / "rsload"
RSLOAD = BUILT / "release" / "rsload"
PROVED = "what `make build` proved and built"


class Work(collections.namedtuple("Work", "kind clients prefixes options")):
    """A work: its kind, which the page explains, its clients, how many prefixes each announces, and more options of rsload."""

    @property
    def name(self):
        thousands = f"{self.prefixes // 1000}k" if self.prefixes % 1000 == 0 else str(self.prefixes)
        return f"{self.kind} {self.clients}x{thousands}"

    @property
    def words(self):
        return f"--clients {self.clients} --prefixes {self.prefixes} {self.options}"


LATE = "--late 1 --profile "
QUICK = (
    Work("packed", 10, 10_000, LATE + "packed"),
    Work("internet", 10, 10_000, LATE + "internet"),
    Work("internet", 50, 2000, LATE + "internet"),
    Work("overlap", 10, 10_000, LATE + "overlap"),
    Work("deaf", 10, 10_000, "--deaf 1 --profile internet --phases a"),
)
FULL = (
    Work("internet", 100, 1000, LATE + "internet"),
    Work("internet", 200, 500, LATE + "internet"),
    Work("internet", 10, 100_000, LATE + "internet"),
    Work("deaf", 10, 100_000, "--deaf 1 --profile internet --phases a"),
    Work("alike", 10, 10_000, LATE + "overlap --degree 10"),
    *(Work(kind, 10, 15_000, LATE + "internet") for kind in RULED),
)
# Those that play a work with rules: BIRD has the same in its language.
WITH_FILTERS = {"ours", "bird", "bird-tables"}
# Who plays which works three times, of which the least counts: those that goals compare where ours takes less than a second.
THRICE = {("overlap", it) for it in ("ours", "bird", "bird-tables")} | {(kind, "ours") for kind in RULED}
# What takes a server so long that it would take most of the time there is.
TOO_SLOW = {("gobgp", kind, clients) for kind, clients in (("internet", 50), ("internet", 100), ("internet", 200), ("deaf", 10), ("alike", 10))} | {("gobgp", "internet 10x100k")}
# How long a server may take to read its configuration.
STARTS = 60
SKIPPED_AS_SLOW = "left out: it sends one prefix in each UPDATE, and takes minutes"


def build():
    """Builds the load."""
    if not shutil.which("cargo"):
        sys.exit("cargo is not installed: rsload, the load, is built by it")
    subprocess.run(["cargo", "build", "--release", "--offline", "-q", "--target-dir", BUILT], cwd=HERE / "rsload", check=True)


def asked(*words):
    """What rsload prints."""
    return subprocess.run([RSLOAD, *words], capture_output=True, text=True, check=True).stdout


def configure(server, words, room, rules):
    """Writes a server's configuration for the clients of a work, with rules of this kind, if any."""
    kind, where = "ours" if server.name.startswith("ours") else server.name, f"{HOST}:{PORT}"
    conf = asked("config", "--daemon", kind, *words, "--target", where, "--dir", room)
    if rules:
        conf = KINDS[rules](room, json.loads(asked("members", *words)), conf, kind, where)
    (room / "conf").write_text(conf)
    (room / "conf").chmod(0o600)


def listens():
    """Whether a socket of this machine listens where servers are to."""
    where = f"{socket.inet_aton(HOST)[::-1].hex().upper()}:{PORT:04X}", f"00000000:{PORT:04X}"
    with open("/proc/net/tcp") as sockets:
        return any(it[1] in where and it[3] == "0A" for it in map(str.split, sockets))


def run(server, options, room, changes, began=None, rules=None):
    """One run: the report of rsload, or what went wrong. `began` is given the moment at which each phase began."""
    words = [*options.split(), "--changes", str(changes)]
    target = ["--target", f"{HOST}:{PORT}"]
    configure(server, words, room, rules)
    with server.running(room) as process:
        until = time.monotonic() + STARTS
        while not listens() and process.poll() is None and time.monotonic() < until:
            time.sleep(0.1)
        time.sleep(1)
        report = room / "report.json"
        more = ["--gap-ms", "30", "--latency-budget", "15", "--timeout", "150", "--max-rss-mb", "6000"]
        own = ["--pid", str(process.pid), "--label", server.name, "--json", report]
        with subprocess.Popen([RSLOAD, "run", *words, *target, *more, *own], stdout=subprocess.PIPE, text=True) as load:
            last = threading.Timer(400, load.kill)
            last.start()
            for line in load.stdout:
                if began is not None:
                    began[line.strip()] = time.monotonic()
            last.cancel()
    return json.loads(report.read_text()) if report.exists() else {"fault": "no report"}


def profile(server, options, room, phases, rules):
    """Where the processor's time goes in ours in each of these phases, by perf; or why there is no such table."""
    if not shutil.which("perf"):
        return {"perf": "perf is not installed, so there is no profile."}
    inner, data, began = server.words, room / "perf.data", {}
    server.words = lambda folder: ["perf", "record", "-q", "-e", "cpu-clock", "-F", "999", "-k", "CLOCK_MONOTONIC", "-o", data, "--", *inner(folder)]
    run(server, options, room, 50, began, rules)
    order, seen = list(began), {}
    for phase in phases:
        if phase not in order[:-1]:
            continue
        times = f"{began[phase]:.6f},{began[order[order.index(phase) + 1]]:.6f}"
        words = ["perf", "report", "--stdio", "--no-children", "-i", data, "--time", times, "--percent-limit", "2", "-F", "overhead,symbol"]
        told = subprocess.run(words, capture_output=True, text=True, timeout=120).stdout
        lines = [it.strip(" -") for it in told.splitlines() if it.strip() and not it.startswith("#")]
        seen[phase] = "\n".join(lines[:5]) or "perf told nothing."
    return seen


def lists_alone(program, runs):
    """What lists.py measures, in lines; rs_replay has to stand beside the program."""
    replay = pathlib.Path(program[0]).with_name("rs_replay")
    return list(measured(program, [replay], max(runs, 3))) if replay.exists() else ["rs_replay isn't there: lists alone were not measured."]


def is_too_slow(server, work):
    return bool({(server, work.kind, work.clients), (server, work.name)} & TOO_SLOW)


def plays(server, work):
    """Whether a server is played a work: one with rules where it has the same, and ours with four workers that by which servers are compared."""
    if server == FOUR:
        return work.name == JUDGED[0]
    return work.kind not in RULED or server in WITH_FILTERS


def played(works, there, options, folder):
    """Plays the works to the servers: their rows."""
    for work in works:
        for server in (it for it in there if plays(it.name, work)):
            if is_too_slow(server.name, work):
                yield Row(work.name, server.name, {}, "", 0.0, SKIPPED_AS_SLOW)
                continue
            for _ in range(3 * options.runs if options.full and (work.kind, server.name) in THRICE else options.runs):
                room, load = pathlib.Path(tempfile.mkdtemp(dir=folder)), os.getloadavg()[0]
                room.chmod(0o777)
                report = run(server, work.words, room, 100 if options.full else 50, rules=RULED.get(work.kind))
                shutil.rmtree(room, ignore_errors=True)
                seen = row(work.name, server.name, report, load)
                print(f"{datetime.datetime.now():%H:%M:%S} {work.name}, {server.name}: wrong: {seen.wrong or seen.faults}; load before it {load:.1f}", flush=True)
                yield seen


def profiles(rows, works, ours, folder):
    """Where each of ours spends its time in each phase of which a goal was missed, if perf is there."""
    missed = [it for it in goals(rows) if it.is_met is False and it.phase]
    for name, own in dict.fromkeys((it.work, it.server) for it in missed):
        work = next(it for it in works if it.name == name)
        room = pathlib.Path(tempfile.mkdtemp(dir=folder))
        room.chmod(0o777)
        phases = dict.fromkeys(it.phase for it in missed if (it.work, it.server) == (name, own))
        seen = profile(next(it for it in ours if it.name == own), work.words, room, phases, RULED.get(work.kind))
        yield from ((f"profile of {name}, {own}, {phase}", words) for phase, words in seen.items())


def about(options, wanted, rows, alone):
    """What is said of the whole run: names and words."""
    today = datetime.date.today()
    yield "made", f"{today.day} {today:%B %Y}"
    yield "machine", f"{platform.processor() or platform.machine()}, {os.cpu_count()} processors, {platform.system()} {platform.release()}"
    yield "build", options.build
    names = {it.server for it in rows}
    yield "servers", ", ".join(f"{it.name} ({it.version()})" for it in wanted if it.name in names)
    yield from (("skipped", f"{it.name} {it.missing}") for it in wanted if it.missing)
    yield from (("lists alone", it) for it in alone)


def arguments():
    parser = argparse.ArgumentParser(description=__doc__, formatter_class=argparse.RawDescriptionHelpFormatter)
    parser.add_argument("program", nargs="+")
    parser.add_argument("--full", action="store_true")
    parser.add_argument("--page", type=pathlib.Path)
    parser.add_argument("--servers")
    parser.add_argument("--works", default="")
    parser.add_argument("--workers", type=int, default=1)
    parser.add_argument("--runs", type=int, default=1)
    parser.add_argument("--divide", type=int, default=1)
    parser.add_argument("--build", default=PROVED)
    options = parser.parse_args()
    if options.divide != 1 and options.page:
        sys.exit("the page is of whole works")
    return options


def main():
    options = arguments()
    # Whatever ends this script, the server that it started is ended too.
    signal.signal(signal.SIGTERM, lambda *_: sys.exit("ended by a signal"))
    build()
    known = list(servers(options.program, options.workers))
    wanted = [it for it in known if not options.servers or it.name in options.servers.split(",")]
    for it in wanted:
        if it.missing:
            print(f"{it.name}: skipped: {it.missing}")
    there = [it for it in wanted if not it.missing]
    all_works = (it._replace(prefixes=it.prefixes // options.divide) for it in (*QUICK, *(FULL if options.full else ())))
    works = [it for it in all_works if any(word in it.name for word in options.works.split(","))]
    if not works:
        sys.exit(f"no work has a name with {options.works}")
    with tempfile.TemporaryDirectory(prefix="bench-") as folder:
        os.chmod(folder, 0o755)
        rows = list(played(works, there, options, folder))
        seen = list(profiles(rows, works, known, folder)) if options.page else []
    alone = lists_alone(options.program, options.runs) if options.full and not options.works and options.page else []
    text = written([*about(options, wanted, rows, alone), *seen], rows)
    if options.page:
        options.page.with_name("bench.csv").write_text(text)
        made(options.page)
    print(text)


if __name__ == "__main__":
    main()
