"""Gives command lines and files of configurations to the built programs, and says which they answer otherwise than they must.

play.py commands SERVED REPLAY

What `clap` prints by the texts of the two command lines: help, versions, and what is wrong, with the status; lines that are refused. Then
the files of a configuration, as rs_replay reads them: their texts are joined, and of a fault the first line is told, of files that can't be
read which one it is. Last what `rs_served --check` prints of such files, as a whole. Names of files are as in the folder that it runs in.
"""
import pathlib
import subprocess
import tempfile


HELP_TO_PLAY = """\
Plays a recorded session from standard input to a route server and writes what its clients are sent

Usage: rs_replay [OPTIONS] --config <FILE>

Options:
  -c, --config <FILE>   the configuration, a TOML file; the texts of several are joined in their order
      --workers <N>     how many workers share the work of a turn, 1 to 16 [default: 1]
      --progress        print on standard error, where it is a terminal, how many lines were read and UPDATEs heard, and how much is left of a file
      --compare <FILE>  hold what another server sent, as this file says, against what is due at the end
      --until <N>       play only the first N lines
      --table <NAME>    list the routes of this client at the end; may be given more than once
  -h, --help            Print help
  -V, --version         Print version
"""

HELP_TO_SERVE = """\
A BGP-4 route server for internet exchanges

Usage: rs_served [OPTIONS]

Options:
  -c, --config <FILE>          the configuration, a TOML file; the texts of several are joined in their order
      --workers <N>            how many threads decide where much has changed, 1 to 16 (1 if missing)
      --sessions <N>           end once so many sessions have ended
      --reload <N>             read the configuration again every N rounds, and use its rules where they are good
      --window <ADDRESS:PORT>  show the server over HTTP there, as at 127.0.0.1:8080, to read alone
      --control <PATH>         take commands at this Unix socket, which the server makes
      --ask <COMMAND>          ask the server whose control socket it is, in place of serving: help lists the commands
      --log [<LEVEL>]          print on standard error what happens, and why: what goes wrong, what changes too, or all [possible values: error, change, route]
      --utc                    begin these lines with the time of day, in place of the seconds since the start
      --record <FILE>          record the run for rs_replay in FILE, and the configuration in FILE.toml, which must not be there
      --record-size <N>        begin FILE.1, FILE.2 and so on, each behind N MiB
      --check                  only read the configuration, and say whether it is good
  -h, --help                   Print help
  -V, --version                Print version
"""

FAULT = """\
error: invalid value '17' for '--workers <N>': 17 is not in 1..=16

For more information, try '--help'.
"""

PLAYS = "rs_replay 0.1.0 (rattle-kit-13f logic dac8208d650f15bf)\n"
SERVES = "rs_served 0.1.0 (rattle-kit-13f logic dac8208d650f15bf)\n"

# Command lines with the status, and what is printed on standard output and on standard error.
PRINTED = (
    ("rs_replay --config a --workers 17", 2, "", FAULT),
    ("rs_replay --help", 0, HELP_TO_PLAY, ""),
    ("rs_replay -h", 0, HELP_TO_PLAY, ""),
    ("rs_served --help", 0, HELP_TO_SERVE, ""),
    ("rs_served -h", 0, HELP_TO_SERVE, ""),
    ("rs_replay --version", 0, PLAYS, ""),
    ("rs_replay -V", 0, PLAYS, ""),
    ("rs_served --version", 0, SERVES, ""),
    ("rs_served -V", 0, SERVES, ""),
)

# Lines that are refused with status 2, before a file is read.
REFUSED = (
    "rs_served",
    "rs_served --config",
    "rs_served --config a b",
    "rs_served --config a --config",
    "rs_served -c",
    "rs_served --config a --unknown",
    "rs_served --config a --workers two",
    "rs_served --config a --workers 0",
    "rs_served --config a --sessions 4294967296",
    "rs_served --config a --reload 65536",
    # what is asked for by half
    "rs_served -c a --record-size 64",
    "rs_served -c a --record r --record-size 0",
    "rs_served -c a --record r --record s",
    "rs_served --control c",
    "rs_served --ask show",
    "rs_served -c a --ask show --control c",
    # levels of the log
    "rs_served -c a --log errors",
    "rs_served -c a --log --log",
)

MEMBERS = (
    '[[client]]\nname = "a"\nas = 64496\nlisten = "127.0.0.1:17901"\npeer = "192.0.2.11"\n'
    '[[client]]\nname = "b"\nas = 64497\nlisten = "127.0.0.1:17902"\npeer = "192.0.2.12"\n'
)
# The first of two texts, which lacks the end of its last line.
TOP = 'as = 64500\nidentifier = "192.0.2.1"'
# Two members.
GOOD = f"{TOP}\n{MEMBERS}"
# The identifier is missing, and the hold time is too short.
TWO_FAULTS = 'as = 64500\nhold = 2\n[[client]]\nname = "a"\nas = 64496\nlisten = "127.0.0.1:17901"\npeer = "192.0.2.11"\n'

# A trace by which just two members are seen, and what is written.
TRACE, BOTH = b"open a\nopen b\nopen c\n", "line 3: unknown client\n"

# Files of a configuration to play by, or paths that are none, with what is written and what is told on standard error.
READ = (
    ("a good file", (GOOD,), BOTH, ""),
    ("the first without the end of its last line", (TOP, MEMBERS), BOTH, ""),
    ("the first with it", (f"{TOP}\n", MEMBERS), BOTH, ""),
    ("the first empty", ("", GOOD), BOTH, ""),
    ("the second empty", (GOOD, ""), BOTH, ""),
    ("the second a comment", (GOOD, "# no more"), BOTH, ""),
    # The last member's table goes on, and has two keys `as`.
    ("the top behind the members", (MEMBERS, TOP), "", "configuration: syntax\n"),
    ("two faults", (TWO_FAULTS,), "", "configuration: missing identifier\n"),
    ("not UTF-8", (b"# caf\xe9\n",), "", "configuration: unreadable\n"),
    ("the second of three not UTF-8", (TOP, b"# caf\xc3", b"\xa9"), "", "configuration: unreadable\n1.toml: not UTF-8\n"),
    ("no file", (pathlib.Path("/no/such/file.toml"),), "", "configuration: unreadable\n"),
    ("a folder", (pathlib.Path("/"),), "", "configuration: unreadable\n"),
    ("no second file", (GOOD, pathlib.Path("lists.toml")), "", "configuration: unreadable\nlists.toml: there is no such file\n"),
    ("1,025 files", (GOOD,) * 1025, "", "configuration: more than 1024 files\n"),
    ("1,024 empty files", ("",) * 1024, "", "configuration: missing as\n"),
)

# Files by their names, with the status of `--check`, and what is printed on standard output and on standard error.
CHECKED = (
    (
        {"a.toml": GOOD.encode()}, 0, "configuration: good, 2 clients\n",
        "warning: multiprotocol is off, and BIRD and OpenBGPD need it\n"
        "warning: line 3, column 1: client 1 has no import rules\n"
        "warning: line 8, column 1: client 2 has no import rules\n",
    ),
    (
        {"a.toml": TWO_FAULTS.encode()}, 2, "",
        "configuration: missing identifier\n"
        'expected: identifier = an address other than 0.0.0.0, as "192.0.2.1"\n'
        "configuration: bad value hold\n"
        "line 2, column 8: hold = 2; expected: an integer: 0, or 3 to 65535\n",
    ),
    ({"a.toml": b"as = 1\n# caf\xc3\xa9 caf\xe9\n"}, 2, "", "configuration: unreadable\nline 2, column 11: not UTF-8\n"),
    (
        {
            "top.toml": b"as = 64500\nhold = 2",
            "empty.toml": b"",
            "two.toml": b'# two\n[[client]]\nname = 7\nas = 64496\nlisten = "127.0.0.1:17901"\npeer = "192.0.2.11"\n',
        },
        2, "",
        "configuration: missing identifier\n"
        'expected: identifier = an address other than 0.0.0.0, as "192.0.2.1"\n'
        "configuration: bad value hold\n"
        "top.toml, line 2, column 8: hold = 2; expected: an integer: 0, or 3 to 65535\n"
        "configuration: bad value client 1 name\n"
        "two.toml, line 3, column 8: name = 7; expected: a text of 1 to 32 ASCII letters, digits and hyphens\n",
    ),
    (
        {
            "top": TOP.encode(),
            "more": b"multiprotocol = true # of the top\n",
            "members": MEMBERS.encode(),
            "limit": b'\n limit = 20\nimport = [{ action = "pass" }]\n',
        },
        0, "configuration: good, 2 clients\n",
        "warning: members, line 1, column 1: client 1 has no import rules\n"
        "warning: limit, line 2, column 2: this belongs to the last table of the file before\n",
    ),
)


class Programs:
    """Both programs, by the names of command lines, and a folder to run them in."""

    def __init__(self, served, replay, folder):
        self.paths, self.folder = {"rs_served": served, "rs_replay": replay}, pathlib.Path(folder)

    def run(self, words, octets=b""):
        """The status, and what was printed on standard output and on standard error."""
        name, *rest = words
        run = subprocess.run([name, *rest], executable=self.paths[name], cwd=self.folder, input=octets, capture_output=True, timeout=60)
        return run.returncode, run.stdout.decode(), run.stderr.decode()

    def given(self, contents):
        """The words that name these files of a configuration, which are made where they are no paths."""
        words = []
        for at, content in enumerate(contents):
            path = content if isinstance(content, pathlib.Path) else f"{at}.toml"
            if path != content:
                (self.folder / path).write_bytes(content.encode() if isinstance(content, str) else content)
            words += ["--config", str(path)]
        return words


def differs(found, wanted):
    return None if found == wanted else f"{found} and not {wanted}"


def refused_differs(found):
    """What is wrong with the end of a line that is refused, or None."""
    status, output, errors = found
    return None if (status, output) == (2, "") and errors.startswith("error: ") else f"{found}"


def play_commands(served, replay):
    """Tries all: what was tried, and what is wrong or None."""
    with tempfile.TemporaryDirectory() as folder:
        programs = Programs(served, replay, folder)
        for line, *wanted in PRINTED:
            yield f"command {line}", differs(programs.run(line.split(" ")), tuple(wanted))
        for line in REFUSED:
            yield f"command refused: {line}", refused_differs(programs.run(line.split(" ")))
        for name, contents, output, errors in READ:
            # A line of the trace is at fault where the configuration is good.
            found = programs.run(["rs_replay", *programs.given(contents)], TRACE)
            yield f"configuration of files: {name}", differs(found, (1 if output else 2, output, errors))
        yield "configuration of files: an empty name", differs(programs.run(["rs_replay", "--config", ""]), (2, "", "configuration: unreadable\n"))
        for files, *wanted in CHECKED:
            for path, octets in files.items():
                (programs.folder / path).write_bytes(octets)
            words = [word for path in files for word in ("--config", path)]
            yield f"--check of {', '.join(files)}: {wanted[2].splitlines()[0]}", differs(programs.run(["rs_served", "--check", *words]), tuple(wanted))


def by_words(words):
    """The results, by the words of a command behind the play's name; None where these are others."""
    if len(words) == 2:
        return play_commands(*(pathlib.Path(it).resolve() for it in words))
    return None
