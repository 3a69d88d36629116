#!/usr/bin/env python3
"""Installs the Debian package in a system of its own, and starts, reloads, stops, upgrades and removes what it brings.

try_package.py PACKAGE [--suite NAME] [--mirror ADDRESS]

By root: debootstrap lays out a small Debian in a temporary folder, and systemd-nspawn boots it, with a network of its own.
lintian must find no error, and systemd-analyze rate the unit below 2. What is needed:
apt-get install debootstrap systemd-container lintian
"""
import argparse
import contextlib
import os
import pathlib
import re
import shutil
import signal
import subprocess
import sys
import tempfile
import time

TOP = pathlib.Path(__file__).resolve().parent.parent.parent
sys.path.append(str(TOP / "tools"))

from results import end, tell

NEEDED = ("debootstrap", "systemd-nspawn", "nsenter", "lintian")
UNIT, FILE = "rs_served", "etc/tivrazel/rs_served.toml"
# The port of BGP, which the unit's user may only take by the one privilege that it has.
TEXT = (TOP / "examples/small.toml").read_text().replace("127.0.0.1:17901", "127.0.0.1:179")
RULES = TEXT.replace("multiprotocol = true\n", 'multiprotocol = true\ndefault = "drop"\n')
FAULTY = TEXT.replace("multiprotocol = true\n", 'multiprotocol = true\ndefault = "maybe"\n')
OTHER = TEXT.replace("as = 64497", "as = 64499")
# A new file is read within so many seconds, by the unit's --reload: at the second look after the change.
RELOAD = 30


def run(*words):
    """The status of a command, and what it prints on both of its outputs."""
    try:
        made = subprocess.run(list(map(str, words)), stdout=subprocess.PIPE, stderr=subprocess.STDOUT, text=True, timeout=120)
    except subprocess.TimeoutExpired:
        return 124, f"{words[0]} did not end"
    return made.returncode, made.stdout.strip()


class System:
    """A Debian that was booted."""

    def __init__(self, root):
        self.root = root
        words = ["systemd-nspawn", "-q", "-D", root, "--register=no", "--keep-unit", "--private-network", "--console=pipe", "-b"]
        self.process = subprocess.Popen(words, stdin=subprocess.DEVNULL, stdout=subprocess.DEVNULL, stderr=subprocess.DEVNULL)
        self.leader = None
        self.wait(self.find_leader)
        self.wait(lambda: self.ask("systemctl", "is-system-running")[1] in ("running", "degraded"))

    def find_leader(self):
        """The process that is the first of the system, as this one numbers it."""
        for it in pathlib.Path(f"/proc/{self.process.pid}/task/{self.process.pid}/children").read_text().split():
            with contextlib.suppress(OSError):
                if pathlib.Path(f"/proc/{it}/comm").read_text() == "systemd\n":
                    self.leader = it
        return self.leader

    def ask(self, *words):
        return run("nsenter", "-t", self.leader, "-m", "-u", "-i", "-n", "-p", "-C", "--", *words)

    def wait(self, holds, patience=60):
        """Waits until something holds. Answers whether it does."""
        until = time.monotonic() + patience
        while not (held := holds()) and time.monotonic() < until:
            time.sleep(0.3)
        return held

    def write(self, text):
        """Puts the configuration into place, never half written."""
        file = self.root / FILE
        new = file.with_suffix(".new")
        new.write_text(text)
        os.replace(new, file)

    def is_active(self):
        return self.ask("systemctl", "is-active", UNIT)[1] == "active"

    def listens(self):
        """Whether something listens at port 179."""
        return any(it.split()[1].endswith(":00B3") and it.split()[3] == "0A" for it in self.ask("cat", "/proc/net/tcp")[1].splitlines())

    def server(self):
        """The number of the server's process; 0 where there is none."""
        return self.ask("systemctl", "show", "-P", "MainPID", UNIT)[1]

    def says(self, words, patience=RELOAD):
        """Whether the journal has these words, within some seconds."""
        return self.wait(lambda: words in self.ask("journalctl", "-q", "--no-pager", "-o", "cat", "-u", UNIT)[1], patience)

    def end(self):
        self.process.send_signal(signal.SIGTERM)
        with contextlib.suppress(subprocess.TimeoutExpired):
            self.process.wait(30)
        self.process.kill()
        self.process.wait()


def installed(system, package):
    """What is there after the installation, before there is a configuration."""
    shutil.copy(package, system.root / "root/package.deb")
    status, said = system.ask("dpkg", "-i", "/root/package.deb")
    yield "is installed", said if status else None
    yield "its programs start", None if all(system.ask(it, "--version")[0] == 0 for it in ("rs_served", "rs_replay")) else "no version"
    yield "its user is there", None if system.ask("getent", "passwd", "tivrazel")[0] == 0 else "no user tivrazel"
    yield "is enabled", None if system.ask("systemctl", "is-enabled", UNIT)[1] == "enabled" else "not enabled"
    yield "waits for a configuration", "it runs without one" if system.is_active() else None
    pages = [f"usr/share/man/man{it[-1]}/{it}.gz" for it in ("rs_replay.1", "rs_served.toml.5", "rs_served.8")]
    missing = [it for it in pages if not (system.root / it).exists()]
    yield "its man pages are there", f"not there: {missing}" if missing else None
    rating = re.search(r"exposure level for \S+: ([\d.]+)", system.ask("systemd-analyze", "security", "--no-pager", UNIT)[1])
    yield "its unit is rated below 2", None if rating and float(rating[1]) < 2 else f"{rating and rating[1]}"


def started(system):
    system.write(TEXT)
    status, said = system.ask("systemctl", "start", UNIT)
    yield "starts", said if status or not system.wait(system.listens, 10) else None
    user = system.ask("ps", "-o", "user=", "-p", system.server())[1]
    yield "runs as its user", None if user == "tivrazel" else f"runs as {user!r}"
    status, said = run("nsenter", "-t", system.leader, "-n", "--", sys.executable, "-c", "import socket; socket.create_connection(('127.0.0.1', 179), 5)")
    yield "serves", None if system.says("begin alpha", 10) else f"no connection began: {said}"


def reloaded(system):
    """A new file is taken or refused, and the server stays."""
    before = system.server()
    system.write(RULES)
    status, said = system.ask("systemctl", "reload", UNIT)
    yield "reload of a good file", said if status else None if system.says("rules accepted") else "the rules were not accepted"
    system.write(FAULTY)
    status, said = system.ask("systemctl", "reload", UNIT)
    yield "reload of a faulty file fails", None if status else f"status {status}"
    yield "a faulty file is refused", None if system.says("rules refused: bad value default") else "the journal says nothing of it"
    system.write(OTHER)
    yield "a file of other members is refused", None if system.says("rules refused: fixed client 2 as") else "the journal says nothing of it"
    yield "is the same after reloads", None if system.is_active() and system.server() == before else "it is another, or gone"
    system.write(TEXT)


def upgraded(system):
    before = system.server()
    status, said = system.ask("dpkg", "-i", "/root/package.deb")
    yield "an upgrade ends no session", said if status else None if system.server() == before else "the server was started again"


def failed(system):
    """It comes back after a fault, but not after one of the configuration."""
    before = system.server()
    system.ask("kill", "-9", before)
    back = lambda: system.is_active() and system.server() not in ("0", before) and system.listens()
    yield "comes back after a fault", None if system.wait(back, 20) else "it does not"
    system.write(FAULTY)
    system.ask("systemctl", "restart", UNIT)
    time.sleep(5)
    tries = system.ask("systemctl", "show", "-P", "NRestarts", UNIT)[1]
    stays = system.ask("systemctl", "is-active", UNIT)[1] == "failed" and tries == "0"
    yield "stays down with a faulty configuration", None if stays else f"{tries} starts more"
    system.write(TEXT)


def stopped(system):
    system.ask("systemctl", "start", UNIT)
    there = system.wait(system.listens, 10)
    status, said = system.ask("systemctl", "stop", UNIT)
    yield "stops", said if status or not there or system.listens() else None
    calm = system.ask("systemctl", "is-active", UNIT)[1] == "inactive"
    yield "a stop is no fault", None if calm else "the unit says otherwise"
    system.ask("systemctl", "start", UNIT)


def removed(system):
    status, said = system.ask("dpkg", "--remove", "tivrazel")
    yield "is removed", said if status else "the server runs on" if system.listens() else None
    status, said = system.ask("dpkg", "--purge", "tivrazel")
    left = [it for it in ("usr/sbin/rs_served", "usr/bin/rs_replay", "lib/systemd/system/rs_served.service") if (system.root / it).exists()]
    yield "leaves nothing but the operator's file", said if status else f"left: {left}" if left else None if (system.root / FILE).exists() else "the configuration is gone"


def checked(package):
    _, said = run("lintian", "--allow-root", package)
    errors = [it for it in said.splitlines() if it.startswith("E:")]
    yield "lintian has no error", "; ".join(errors) or None


def tried(root, package):
    """All of it, each as a name and what is wrong or None."""
    yield from checked(package)
    system = System(root)
    try:
        yield from installed(system, package)
        for part in (started, reloaded, upgraded, failed, stopped, removed):
            yield from part(system)
    finally:
        system.end()


def main():
    parser = argparse.ArgumentParser(description=__doc__, formatter_class=argparse.RawDescriptionHelpFormatter)
    parser.add_argument("package", type=pathlib.Path)
    parser.add_argument("--suite", default="bookworm")
    parser.add_argument("--mirror", default="http://deb.debian.org/debian")
    options = parser.parse_args()
    # Whatever ends this script, the system that it booted is ended too.
    signal.signal(signal.SIGTERM, lambda *_: sys.exit("ended by a signal"))
    if os.getuid():
        sys.exit("a system is booted by root alone")
    if missing := [it for it in NEEDED if not shutil.which(it)]:
        sys.exit(f"not found: {', '.join(missing)}: nothing was tried")
    with tempfile.TemporaryDirectory(prefix="try-package-") as room:
        root = pathlib.Path(room, "root")
        words = ["debootstrap", "--variant=minbase", "--include=systemd,systemd-sysv,procps", options.suite, root, options.mirror]
        status = subprocess.run(words, stdout=subprocess.PIPE, stderr=subprocess.STDOUT, text=True)
        if status.returncode:
            sys.exit(status.stdout + "debootstrap laid out no system: nothing was tried")
        end(*tell(tried(root, options.package.resolve())))


if __name__ == "__main__":
    main()
