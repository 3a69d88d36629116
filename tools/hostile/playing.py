"""How a row is played: each attack in a process of its own that ends within its bound, and what was seen."""
import multiprocessing
import os
import signal
import sys
import tempfile
import traceback


class Seen:
    """What an attack came to on one server: figures by name, words for the page, and when the attack was: each span has a name and
    two moments of the monotonic clock."""

    def __init__(self, figures, words, spans=()):
        self.figures, self.words, self.spans = figures, words, spans


def counted(ended):
    """How many sessions were lost, and how."""
    whole = sum(ended.values())
    return f"{whole}" + (f" ({', '.join(f'{it}: {many}' for it, many in ended.items())})" if ended else "")


def shown(seconds):
    """Seconds as a person reads them."""
    if seconds == float("inf"):
        return "more than was waited for"
    return f"{seconds:.1f} s" if seconds >= 1 else f"{1000 * seconds:.3g} ms"


def alone(there, room, work, target, sizes):
    """The work, as the head of a group of processes, with its files in this folder."""
    os.setsid()
    tempfile.tempdir = room
    try:
        there.send(work(target, **sizes))
    except Exception as fault:
        traceback.print_exc(file=sys.stderr)
        there.send(f"not played to its end: {fault}")


def bounded(most, work, target, sizes):
    """What the work answers in this many seconds, or a text of what went wrong. Whatever it has started ends with it."""
    fork = multiprocessing.get_context("fork")
    here, there = fork.Pipe()
    with tempfile.TemporaryDirectory(prefix="hostile-", ignore_cleanup_errors=True) as room:
        os.chmod(room, 0o755)
        process = fork.Process(target=alone, args=(there, room, work, target, sizes))
        process.start()
        there.close()
        try:
            return here.recv() if here.poll(most) else f"took more than {most} s"
        except EOFError:
            return "not played to its end"
        finally:
            try:
                os.killpg(process.pid, signal.SIGKILL)
            except ProcessLookupError:
                process.kill()
            process.join()
