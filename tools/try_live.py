#!/usr/bin/env python3
"""Runs the live server, built without proofs, between two members, and shows a route that goes from each to the other.

try_live.py

The members are two BIRDs, where BIRD 2 is installed, as examples/bird.conf and examples/bird_beta.conf have them; else
two members of our own. All is on loopback, by examples/small.toml. It ends by itself, within a few minutes, and its
status is 0 where both routes arrived. Nothing is proved here: `make build` proves, and takes its time.
"""
import contextlib
import os
import pathlib
import shutil
import signal
import subprocess
import sys
import tempfile
import time

from peers.members import Member, exchange

TOP = pathlib.Path(__file__).resolve().parent.parent
PORTS = {"alpha": 17901, "beta": 17902}
ROUTES = {"alpha": "198.51.100.0/24", "beta": "203.0.113.0/24"}
NUMBERS = {"alpha": (64496, "192.0.2.11"), "beta": (64497, "192.0.2.12")}
CONFIGURATIONS = {"alpha": "bird.conf", "beta": "bird_beta.conf"}
# How long the server may take to be built, and how long the members may take to hear of each other.
BUILD, PLAY = 420, 90


def listens(port):
    """Whether a socket of this machine listens at the port."""
    end = f":{port:04X}"
    with open("/proc/net/tcp") as sockets:
        return any(it[1].endswith(end) and it[3] == "0A" for it in map(str.split, sockets))


def other(name):
    return "beta" if name == "alpha" else "alpha"


@contextlib.contextmanager
def server(log):
    """The server, built without proofs. It ends once two sessions have ended."""
    words = ["rt", "try", "--seconds", str(PLAY + 30), "--", "--config", TOP / "examples/small.toml", "--sessions", "2", "--log"]
    process = subprocess.Popen(
        words, cwd=TOP / "crates/rs_served", stdin=subprocess.DEVNULL, stdout=log, stderr=log, start_new_session=True
    )
    try:
        yield process
    finally:
        with contextlib.suppress(ProcessLookupError):
            os.killpg(process.pid, signal.SIGKILL)
        process.wait()


def wait_for_server(process):
    """Waits until the server listens; answers whether it does."""
    until = time.monotonic() + BUILD
    while time.monotonic() < until and process.poll() is None:
        if all(map(listens, PORTS.values())):
            return True
        time.sleep(0.2)
    return False


def birdc(room, name, *words):
    run = subprocess.run(["birdc", "-s", room / f"{name}.ctl", *words], capture_output=True, text=True)
    return run.stdout


def play_birds(room):
    """Two BIRDs; answers what each shows of the other's route once both have it, or None."""
    with contextlib.ExitStack() as stack:
        for name, file in CONFIGURATIONS.items():
            bird = subprocess.Popen(["bird", "-f", "-c", TOP / "examples" / file, "-s", room / f"{name}.ctl"], stderr=subprocess.DEVNULL)
            stack.callback(bird.wait)
            stack.callback(bird.terminate)
        until = time.monotonic() + PLAY
        while time.monotonic() < until:
            seen = {it: birdc(room, it, "show", "route", ROUTES[other(it)], "all") for it in PORTS}
            if all(ROUTES[other(it)] in text for it, text in seen.items()):
                return {it: text.split("\n", 1)[-1] for it, text in seen.items()}
            time.sleep(0.5)
    return None


def play_members(room):
    """Two members of our own; answers what each was sent once both have the other's route, or None."""
    members = []
    for name, (number, address) in NUMBERS.items():
        route = bytes(map(int, ROUTES[name].split("/")[0].split(".")[:3]))
        members.append(Member(name, number, address, ("127.0.0.1", PORTS[name]), [route]))
    exchange(members, members, time.monotonic() + PLAY)
    seen = {it.name: "".join(f"{'.'.join(map(str, p))}.0/24 with the attributes {a.hex()}\n" for p, a in it.told.items()) for it in members}
    for it in members:
        it.socket.close()
    return seen if all(it.told and not it.wrong for it in members) else None


def main():
    has_bird = shutil.which("bird") and shutil.which("birdc")
    if not shutil.which("rt"):
        print("rt, the command of the Rattle toolchain, is not on the PATH")
        return 1
    if any(map(listens, PORTS.values())):
        print(f"the ports {' and '.join(map(str, PORTS.values()))} of examples/small.toml are in use")
        return 1
    print("The live server is built without proofs, which takes a minute or two. NOTHING IS PROVED by this.", flush=True)
    started = time.monotonic()
    with tempfile.TemporaryDirectory(prefix="try-") as room, open(pathlib.Path(room, "log"), "w+") as log:
        with server(log) as process:
            seen = None
            if wait_for_server(process):
                who = "two BIRDs" if has_bird else "two members of our own (BIRD 2 is not installed)"
                print(f"It listens after {time.monotonic() - started:.0f} seconds. The members are {who}.\n", flush=True)
                seen = (play_birds if has_bird else play_members)(pathlib.Path(room))
                for name, text in (seen or {}).items():
                    print(f"{name} has {other(name)}'s route:\n{text}")
                with contextlib.suppress(subprocess.TimeoutExpired):
                    process.wait(30)
        log.seek(0)
        print("What the server said:\n" + log.read())
    print("Both routes arrived. Nothing was proved: `make build` does that." if seen else "No route arrived: see above what the server said.")
    return 0 if seen else 1


if __name__ == "__main__":
    sys.exit(main())
