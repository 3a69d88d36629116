"""The route servers that are measured: which are installed, how each is started, and its version."""
import contextlib
import os
import pathlib
import pwd
import re
import shutil
import subprocess

# Ours with four workers.
FOUR = "ours-4"
HOST, PORT, API = "127.0.0.2", 1790, 1791
UNIT = pathlib.Path(__file__).resolve().parent.parent / "examples" / "rs_served.service"
FRR = pathlib.Path("/usr/lib/frr/bgpd")


def version_of(*words):
    """The number at the end of what a command prints about its version."""
    ran = subprocess.run(words, stdout=subprocess.PIPE, stderr=subprocess.STDOUT, text=True, timeout=20)
    found = re.findall(r"\d+(?:\.\d+)+\S*", ran.stdout.partition("\n")[0])
    return found[-1] if found else "unknown"


def unit_environment():
    """What our unit sets, as an operator's server has it."""
    lines = (it.removeprefix("Environment=") for it in UNIT.read_text().splitlines() if it.startswith("Environment="))
    return dict(it.split("=", 1) for it in lines)


class Server:
    """A route server: its name in tables, the package that has it, the name of its configuration, and what is set for it."""

    def __init__(self, name, package, words, version, missing, environment=None):
        self.name, self.package, self.words, self.version, self.missing = name, package, words, version, missing
        self.environment = environment or {}

    @contextlib.contextmanager
    def running(self, room):
        """The process, with its files in a folder of its own; ended by its number."""
        if self.package == "openbgpd":
            # It locks itself into the home folder of its user.
            os.makedirs(pwd.getpwnam("_openbgpd").pw_dir, exist_ok=True)
        with open(room / "out", "w") as out, subprocess.Popen(
            self.words(room), stdout=out, stderr=out, stdin=subprocess.DEVNULL, env={**os.environ, **self.environment}
        ) as process:
            try:
                yield process
            finally:
                process.terminate()
                try:
                    process.wait(8)
                except subprocess.TimeoutExpired:
                    process.kill()


def installed(*programs):
    """What is said where one of the programs is not there, or None."""
    return None if all(shutil.which(str(it)) for it in programs) else "is not installed"


def servers(program, workers):
    """Ours first, also with four workers, then the others."""
    bird = lambda room: ["bird", "-f", "-c", room / "conf", "-s", room / "ctl"]
    openbgpd = installed("bgpd", "bgpctl") or (None if os.getuid() == 0 else "wants to be started by root")
    gobgp = ["gobgpd", "-t", "toml", "--api-hosts", f"{HOST}:{API}", "--pprof-disable", "-l", "warn"]
    frr = [FRR, "-p", str(PORT), "-l", HOST, "-Z", "-S", "-P", "0"]
    for name, count in (("ours", workers), (FOUR, 4)):
        words = lambda room, count=count: [*program, "--config", room / "conf", "--workers", str(count)]
        yield Server(name, None, words, lambda count=count: f"{count} worker{'s' * (count > 1)}", None, unit_environment())
    yield Server("bird", "bird2", bird, lambda: version_of("bird", "--version"), installed("bird"))
    yield Server("bird-tables", "bird2", bird, lambda: version_of("bird", "--version"), installed("bird"))
    yield Server("openbgpd", "openbgpd", lambda room: ["bgpd", "-d", "-f", room / "conf"], lambda: version_of("bgpd", "-V"), openbgpd)
    yield Server(
        "frr",
        "frr",
        lambda room: [*frr, "-f", room / "conf", "-i", room / "pid", "-z", room / "zserv", "--vty_socket", room],
        lambda: version_of(FRR, "--version"),
        installed(FRR),
    )
    yield Server("gobgp", "gobgpd", lambda room: [*gobgp, "-f", room / "conf"], lambda: version_of("gobgpd", "--version"), installed("gobgpd"))
