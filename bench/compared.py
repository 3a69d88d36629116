#!/usr/bin/env python3
"""Holds other route servers against the standards: what they send is compared with what rs_replay says is due.

compared.py RS_REPLAY [--servers NAME,..] [--options TEXT] [--keep FOLDER]

Each server that is installed gets the same load, by which several members announce the same prefixes (bench/rsload, built
by cargo without a network). tcpdump captures its sessions on loopback, tools/from_capture.py makes a recorded session of
them, and `rs_replay --compare` reports where what it sent and what is due differ. tcpdump wants to be started by root.
"""
import argparse
import contextlib
import pathlib
import shutil
import subprocess
import sys
import tempfile
import time

from bench import RSLOAD, build
from servers import HOST, PORT, servers

FROM_CAPTURE = pathlib.Path(__file__).resolve().parent.parent / "tools" / "from_capture.py"


@contextlib.contextmanager
def captured(path):
    """What goes over loopback to and from the server's port is written to this file."""
    words = ["tcpdump", "-i", "lo", "-s", "0", "-B", "65536", "-U", "-w", path, f"tcp port {PORT}"]
    with subprocess.Popen(words, stdout=subprocess.DEVNULL, stderr=subprocess.DEVNULL) as process:
        time.sleep(1)
        try:
            yield
        finally:
            time.sleep(2)
            process.terminate()
            process.wait(20)


def played(server, options, room):
    """The load is played to the server, and captured."""
    words = options.split()
    target = ["--target", f"{HOST}:{PORT}"]
    made = subprocess.run([RSLOAD, "config", "--daemon", server.name, *words, *target, "--dir", room], capture_output=True, text=True, check=True)
    (room / "conf").write_text(made.stdout)
    (room / "conf").chmod(0o600)
    with captured(room / "capture"), server.running(room) as process:
        time.sleep(1)
        load = [RSLOAD, "run", *words, *target, "--phases", "a", "--timeout", "60", "--pid", str(process.pid), "--label", server.name]
        subprocess.run([*load, "--json", room / "report.json"], stdout=subprocess.DEVNULL, timeout=200)


def compared(program, room):
    """The lines of rs_replay on what differs while all members are still up, and its status: 0 where nothing does."""
    names = {kind: room / kind for kind in ("toml", "trace", "sent")}
    made = [FROM_CAPTURE, "--server", f"{HOST}:{PORT}", room / "capture", "--config", names["toml"], "--session", names["trace"], "--sent", names["sent"]]
    ran = subprocess.run(made, capture_output=True, text=True)
    if ran.returncode:
        return ran.stderr, None
    lines = names["trace"].read_text().splitlines()
    until = next((number for number, line in enumerate(lines) if line.startswith("lost ")), len(lines))
    words = [program, "--config", names["toml"], "--compare", names["sent"], "--until", str(until)]
    with open(names["trace"]) as session:
        ran = subprocess.run(words, stdin=session, capture_output=True, text=True, timeout=400)
    told = [line for line in ran.stdout.splitlines() if line.split(" ")[0] in ("compared", "unreadable")]
    return "\n".join(told) + ran.stderr, ran.returncode


def main():
    parser = argparse.ArgumentParser(description=__doc__, formatter_class=argparse.RawDescriptionHelpFormatter)
    parser.add_argument("program", type=pathlib.Path)
    parser.add_argument("--servers", default="bird,bird-tables,frr")
    parser.add_argument("--options", default="--profile overlap --clients 3 --prefixes 300")
    parser.add_argument("--keep", type=pathlib.Path)
    options = parser.parse_args()
    if not shutil.which("tcpdump"):
        sys.exit("tcpdump is not installed")
    build()
    for server in servers([options.program], 1):
        if server.name not in options.servers.split(","):
            continue
        if server.missing:
            print(f"{server.name}: skipped: {server.missing}")
            continue
        with contextlib.ExitStack() as stack:
            room = options.keep / server.name if options.keep else pathlib.Path(stack.enter_context(tempfile.TemporaryDirectory(prefix="compared-")))
            room.mkdir(parents=True, exist_ok=True)
            room.chmod(0o777)
            played(server, options.options, room)
            text, status = compared(options.program, room)
            print(f"== {server.name} {server.version()}: status {status}\n{text}", flush=True)


if __name__ == "__main__":
    main()
