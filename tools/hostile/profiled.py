"""Where our server's processor time goes during an attack, by perf: functions and their parts of the samples."""
import pathlib
import shutil
import subprocess
import tempfile

from .playing import Seen, bounded
from .targets import Target

# Functions with less of the samples are left out, and so are those behind so many.
LEAST, MOST = 2, 12


def under_perf(target, folder):
    """The same server under perf, which leaves a file in the folder for each time that it is started."""

    def words(room):
        data = pathlib.Path(tempfile.mkdtemp(dir=folder)) / "data"
        return ["perf", "record", "-q", "-e", "cpu-clock", "-F", "499", "-k", "CLOCK_MONOTONIC", "-o", data, "--", *target.words(room)]

    return Target(target.name, target.configuration, words, target.missing, target.version)


def functions(data, first, last):
    """The functions of a file of perf between two moments, by the processor time in them: seconds in all, and part and name of each,
    the greatest first."""
    words = ["perf", "report", "--stdio", "--no-children", "-g", "none", "-i", data, "--time", f"{first:.6f},{last:.6f}", "-F", "period,symbol"]
    ran = subprocess.run(words, capture_output=True, text=True, timeout=120)
    lines = (it.split(None, 2) for it in ran.stdout.splitlines() if it.strip() and not it.startswith("#"))
    found = [(int(period), name) for period, _, name in (it for it in lines if len(it) == 3)]
    whole = sum(period for period, _ in found)
    return whole / 1e9, [f"{100 * period / whole:.0f}% {name}" for period, name in found if 100 * period >= LEAST * whole][:MOST]


def profile(row, target):
    """A row is played to ours once more: for each span of the attack where its time went, in words; or why that isn't known."""
    if not shutil.which("perf"):
        return "perf is not installed"
    with tempfile.TemporaryDirectory(prefix="profile-", ignore_cleanup_errors=True) as folder:
        seen = bounded(row.seconds, row.play, under_perf(target, folder), row.sizes)
        if not isinstance(seen, Seen):
            return f"under perf: {seen}"
        told = []
        for name, first, last in seen.spans:
            for data in pathlib.Path(folder).glob("*/data"):
                used, found = functions(data, first, last)
                if found:
                    told.append(f"{name}, {used:.1f} s of the processor in {last - first:.1f} s: {', '.join(found)}")
    return "; ".join(told) or "the attack has no span"
