"""Programs that run with a library preloaded: requests for memory are counted and one is refused, or no thread can be started."""
import os
import pathlib
import subprocess

HERE = pathlib.Path(__file__).resolve().parent


def built(folder, name):
    """The library of this C file, built in this folder."""
    library = pathlib.Path(folder) / f"{name}.so"
    subprocess.run(["cc", "-O2", "-shared", "-fPIC", "-o", library, HERE / f"{name}.c"], check=True)
    return library


def preloaded(library, teller, run, **variables):
    """What `run` answers, which is given an environment and descriptors to run a program with, and what the library told.

    The library has these variables, and in the one of the name `teller` the descriptor on which it tells.
    """
    reader, writer = os.pipe()
    try:
        answer = run({**os.environ, "LD_PRELOAD": str(library), teller: str(writer), **variables}, (writer,))
    finally:
        os.close(writer)
    with os.fdopen(reader, "rb") as told:
        return answer, told.read()


def run_test(program, test, library, teller, seconds, **variables):
    """Whether a test passed, what it printed, and what the library told."""
    run = lambda environment, descriptors: subprocess.run(
        [program, test], env=environment, pass_fds=descriptors, capture_output=True, timeout=seconds
    )
    ran, told = preloaded(library, teller, run, **variables)
    return ran.returncode == 0, ran.stdout + ran.stderr, told
