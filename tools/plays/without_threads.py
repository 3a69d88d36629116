"""Runs tests, and plays recorded sessions, where no thread can be started, and says what went otherwise than it must.

play.py without_threads CRATES FOLDER

CRATES has the crates with their built tests and programs, FOLDER the recorded sessions. Turns by several workers, and what
drives them, replays them and serves by them, must do the same on the thread that there is; and the tests by which two
workers must run at once must fail, which shows that there was no second thread. Each recorded session must be played by 2 and by
16 workers as by one.
"""
import pathlib
import subprocess
import tempfile

from .holding import play
from .preloading import built, preloaded, run_test
from .sweeps import sessions

SECONDS = 120
# Each test by its crate, and whether it passes without threads.
TESTS = (
    ("rs_tests", "workers::any_number_of_workers_gives_the_same", True),
    ("rs_tests", "workers::both_shares_run", False),
    ("rs_tests", "route_server::turns::many_workers_turn", True),
    ("rs_tests", "route_server::turns::both_shares_run", False),
    ("rs_tests", "route_server::driving::many_workers_drive_a_link", True),
    ("rs_program_tests", "live::rounds::a_route_goes_by_many_workers", True),
)


def play_tests(library, crates):
    """The result of each test, by its name."""
    for crate, test, wanted in TESTS:
        program, wrong = crates / crate / f"out/{crate}_tests", None
        if not program.exists():
            yield f"without threads, {test}", f"{program} isn't there"
            continue
        passed, _, refused = run_test(program, test, library, "REFUSED", SECONDS)
        if not refused:
            wrong = "no thread was asked for"
        elif passed != wanted:
            wrong = "passed" if passed else "failed"
        yield f"without threads, {crate} {test}", wrong


def play_recorded(library, program, folder):
    """The result of each recorded session, by its name and the number of workers."""
    for name, text, lines in sessions(folder):
        wanted = play(program, text, lines)
        for workers in (2, 16):
            run = lambda environment, descriptors: play(program, text, lines, workers, environment, descriptors)
            found, refused = preloaded(library, "REFUSED", run)
            wrong = None if found == wanted else "what is written is another"
            if "turn" in lines and not refused:
                wrong = "no thread was asked for"
            yield f"without threads, {name} by {workers} workers", wrong


def play_alone(crates, folder):
    """The results of all."""
    try:
        with tempfile.TemporaryDirectory() as room:
            library = built(room, "no_threads")
            yield from play_tests(library, crates)
            yield from play_recorded(library, crates / "rs_replay/out/rs_replay", folder)
    except (OSError, subprocess.SubprocessError) as fault:
        yield "without threads", str(fault)


def by_words(words):
    """The results, by the words of a command behind the play's name; None where these are others."""
    if len(words) == 2:
        return play_alone(*(pathlib.Path(it).resolve() for it in words))
    return None
