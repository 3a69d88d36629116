#!/usr/bin/env python3
"""The gate: every proof from nothing, then the recorded sessions on the programs that came of it.

Runs `rt ci` at the top of the repository and passes on what it prints. Meanwhile it looks, every two
seconds, at the processes of the prover and of the compilers; from that it prints how long each crate's
proofs and tests took. Then it tries the wrong programs of must-fail, which the prover must refuse, over what was proved. Then it plays each session of examples/sessions to the built rs_replay, and two members to the
built rs_served, records one and plays the record, and gives both programs configurations. It holds what the members of these sessions are sent against the
plain function (`plain`): of their fronts, with losses, cut and changed octets, refused memory and without threads, and of random
sessions; and those by rules that members share against those by the same rules of each one's own. It plays hostile members to the built rs_served, those whose play takes seconds. It runs tests
of calls that take no memory where requests are counted and a test of outlets where memory is refused, compares the example
configurations with those that are tested, and looks whether the edits of wrong programs still apply, and what the pages name is
there. What failed is said once more at the end. The last line is 'N passed, M failed' over all of it; the exit status is 0 where
nothing failed.

It reads the repository, and writes nothing but what `rt ci` itself writes.
"""
import collections
import os
import pathlib
import re
import resource
import shutil
import subprocess
import sys
import threading
import time

from check_edits import check_edits
from check_examples import check
from check_names import check_pages
from fuzz import CASES, fuzz
from hostile.plays import play_short
from must_fail import play_edits
from plays.checks import play_checks
from plays.commands import play_commands
from plays.control import play_control
from plays.faults import play_faults
from plays.filtering import play_filtering
from plays.ignored import play_ignored
from plays.matching import play_matching
from plays.record import play_records
from plays.refused import play_refused
from plays.requests import play_requests
from plays.rules import ROUTES, SEED, play_rules
from plays.server import play_members
from plays.sessions import play
from plays.shared import play_shared
from plays.sweeps import play_sweeps
from plays.window import play_window
from plays.without_memory import play_memory
from plays.without_threads import play_alone
from results import tell

TOP = pathlib.Path(__file__).resolve().parent.parent
# The rows of hostile members that are played, in small sizes.
HOSTILE = "abcdegn"
PAUSE = 2
TICK = os.sysconf("SC_CLK_TCK")
# What `rt ci` says of a crate, a test or an edit that failed.
FAILED = re.compile(r"FAILED|NOT PROVED|NOT REFUSED|BAD EDIT|no-answer|not in the layout")
# So many lines on what failed stand above the last line.
MOST_TOLD = 12
KINDS = ("proofs", "tests")

Process = collections.namedtuple("Process", "parent started seconds")


def processes():
    """Each process by its number: its parent, its start, its processor time with that of its children that ended."""
    found = {}
    for pid in filter(str.isdigit, os.listdir("/proc")):
        try:
            stat = pathlib.Path(f"/proc/{pid}/stat").read_text()
        except OSError:
            continue
        # What stands after the name in its brackets: the state, the parent, .., four times in ticks, .., the start.
        fields = stat.rpartition(")")[2].split()
        found[int(pid)] = Process(int(fields[1]), int(fields[19]), sum(map(int, fields[11:15])) / TICK)
    return found


def task_of(pid):
    """The crate that a process of the prover or of a compiler works on, and for what; or None."""
    try:
        words = pathlib.Path(f"/proc/{pid}/cmdline").read_bytes().decode(errors="replace").split("\0")
    except OSError:
        return None
    if "--crate-name" not in words[:-1]:
        return None
    return words[words.index("--crate-name") + 1], "tests" if "--test" in words else "proofs"


def look(gate, tasks, seconds):
    """Notes the processor time of each task so far. A task is the topmost process that names its crate, with all below it."""
    found, now = processes(), collections.Counter()
    for pid in found:
        above, top = pid, None
        while above in found and above != gate:
            # Numbers of processes are used again, so a task goes by its start too.
            key = above, found[above].started
            if task := tasks.get(key) or task_of(above):
                tasks[key], top = task, key
            above = found[above].parent
        if above == gate and top:
            now[top] += found[pid].seconds
    seconds.update(now)


def watch(gate, over, tasks, seconds):
    """Looks again and again, until it is over: a look takes 17 ms of a processor."""
    while not over.wait(PAUSE):
        look(gate, tasks, seconds)


def lanes():
    """How many crates are tried side by side: one for each processor, as many as memory holds. A check split into
    jobs reads its libraries for each of them, so `RT_JOBS` gives each check one."""
    memory = int(re.search(r"MemAvailable:\s+(\d+)", pathlib.Path("/proc/meminfo").read_text())[1])
    return max(1, min(len(os.sched_getaffinity(0)), memory // (6 << 20)))


def run_gate():
    """Runs `rt ci`; answers its counts, what it said of what failed, and the processor seconds of each crate and kind."""
    os.environ.setdefault("RT_JOBS", str(lanes()))
    tasks, seconds, over = {}, {}, threading.Event()
    line, told = "", []
    with subprocess.Popen(["rt", "ci"], cwd=TOP, stdout=subprocess.PIPE, stderr=subprocess.STDOUT, text=True) as gate:
        watcher = threading.Thread(target=watch, args=(gate.pid, over, tasks, seconds), daemon=True)
        watcher.start()
        for line in gate.stdout:
            print(line, end="", flush=True)
            if FAILED.search(line):
                told.append(line.strip())
        status = gate.wait()
    over.set()
    watcher.join()
    counts = re.fullmatch(r"(\d+) passed, (\d+) failed", line.strip())
    passed, failed = (int(it) for it in counts.groups()) if counts else (0, 1)
    if status and not failed:
        failed = 1
    took = collections.Counter()
    for top, spent in seconds.items():
        took[tasks[top]] += spent
    return passed, failed, told if failed else [], took


def tell_times(took, started):
    """How long each crate's proofs and tests took, the longest crate first, and the whole."""
    whole = lambda crate: sum(took[crate, kind] for kind in KINDS)
    print("\nProcessor seconds of each crate's proofs (with what is compiled) and tests:")
    print(f"  {'':<12}" + "".join(f"{it:>8}" for it in (*KINDS, "whole")))
    for crate in sorted({crate for crate, _ in took}, key=whole, reverse=True):
        figures = [*(took[crate, kind] for kind in KINDS), whole(crate)]
        print(f"  {crate:<12}" + "".join(f"{it:8.0f}" for it in figures))
    tell_time("What was proved", started, 0)


def processor_minutes():
    """What this process and those that it waited for have taken so far."""
    all_used = map(resource.getrusage, (resource.RUSAGE_SELF, resource.RUSAGE_CHILDREN))
    return sum(used.ru_utime + used.ru_stime for used in all_used) / 60


def tell_time(what, started, used):
    """How long it took since this moment, and since so many processor minutes were used."""
    print(
        f"{what}: {time.monotonic() - started:.0f} seconds on {len(os.sched_getaffinity(0))} processors, "
        f"{processor_minutes() - used:.1f} processor minutes"
    )


def play_all(crates, folder):
    """The result of each check on what was built."""
    replay = crates / "rs_replay/out/rs_replay"
    yield from play(replay, folder)
    yield from play_ignored(replay, folder)
    yield from play_sweeps(replay, folder)
    yield from play_refused(replay, folder)
    yield from fuzz(replay, CASES, time.time_ns() % 2**32)
    yield from play_rules(replay, ROUTES, SEED)
    yield from play_shared(replay)
    yield from play_faults(replay)
    yield from play_matching(replay)
    yield from play_filtering(replay)
    yield from play_members(crates / "rs_served/out/rs_served")
    yield from play_records(crates / "rs_served/out/rs_served", replay)
    yield from play_window(crates / "rs_served/out/rs_served")
    yield from play_requests(crates / "rs_served/out/rs_served")
    yield from play_control(crates / "rs_served/out/rs_served")
    yield from play_checks(crates / "rs_served/out/rs_served")
    yield from play_commands(crates / "rs_served/out/rs_served", replay)
    yield from play_short(crates / "rs_served/out/rs_served", HOSTILE)
    yield from play_alone(crates, folder)
    yield from play_memory(crates / "rs_tests/out/rs_tests_tests")
    yield from check()
    yield from check_edits()
    yield from check_pages()


def noted(results, told):
    """These results; each that failed is listed too."""
    for name, wrong in results:
        if wrong:
            told.append(f"{name}: {wrong}")
        yield name, wrong


def main():
    if not shutil.which("rt"):
        print("rt, the command of the Rattle toolchain, is not on the PATH\n0 passed, 1 failed")
        return 1
    started = time.monotonic()
    passed, failed, told, took = run_gate()
    tell_times(took, started)
    beside = (
        ("The wrong programs", play_edits(count=lanes())),
        ("What was played", play_all(TOP / "crates", TOP / "examples/sessions")),
    )
    for what, results in beside:
        began, used = time.monotonic(), processor_minutes()
        held, differ = tell(noted(results, told))
        tell_time(what, began, used)
        passed, failed = passed + held, failed + differ
    tell_time("The whole", started, 0)
    for line in told[:MOST_TOLD]:
        print(f"failed: {line[:400]}")
    print(f"{passed} passed, {failed} failed")
    return 1 if failed else 0


if __name__ == "__main__":
    sys.exit(main())
