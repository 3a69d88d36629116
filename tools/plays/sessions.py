"""Plays recorded sessions to a built rs_replay, and says which come out otherwise than written down.

play.py sessions PROGRAM FOLDER [NAME..]

A session NAME is FOLDER/NAME.trace, given on standard input, with the configuration NAME.toml (no such
file: four_members.toml above the folder), what the program must write in NAME.out and on standard error in NAME.err
(no such file: nothing), and the exit status that it must end with in NAME.status (no such file: 0). Each is played by
1, 2, 3 and 16 workers.

Where no NAME is given, one trace more is played with --progress, from a pipe and from a file: with a terminal on standard
error it must be told there on one line how far the replay is, and without one nothing; what is written is the same. And one is
played of which only the first line is read, as by `head -1`: the program must end with status 3, and say nothing. Others are held
against what another server may have sent, or are played with --table.
"""
import os
import pathlib
import pty
import re
import subprocess
import tempfile


WORKERS = ["1", "2", "3", "16"]


def differs(program, folder, name, workers):
    """What is wrong with the session's outcome by so many workers, or None."""
    config = folder / f"{name}.toml"
    if not config.exists():
        config = folder.parent / "four_members.toml"
    words = [program, "--config", config, "--workers", workers]
    with open(folder / f"{name}.trace", "rb") as trace:
        try:
            run = subprocess.run(words, stdin=trace, capture_output=True, timeout=60)
        except (OSError, subprocess.TimeoutExpired) as fault:
            return str(fault)
    status = folder / f"{name}.status"
    wanted_status = int(status.read_text()) if status.exists() else 0
    wanted = (folder / f"{name}.out").read_bytes()
    if run.returncode != wanted_status:
        return f"status {run.returncode}, not {wanted_status}: {run.stderr.decode(errors='replace').strip()}"
    if run.stdout != wanted:
        return f"wrote\n{run.stdout.decode(errors='replace')}and not\n{wanted.decode(errors='replace')}"
    errors = folder / f"{name}.err"
    wanted_errors = errors.read_bytes() if errors.exists() else b""
    if run.stderr != wanted_errors:
        return f"wrote {run.stderr} on standard error, and not {wanted_errors}"
    return None


def progress_differs(program, folder):
    """What is wrong with what is told of a long replay, or None."""
    first = (folder / "first_route.trace").read_bytes()
    trace = first + b"moment 7\nmoment 7\n" + b"#\n" * 140_000 + b"moment 7\nmoment 8\n"
    at = first.count(b"\n") + 1
    told = [at, at + 65_536, at + 2 * 65_536, at + 140_003]
    wanted = "".join(f"\r{line} lines read, 1 UPDATEs heard" for line in told).encode() + b"\r\n"
    words = [program, "--config", folder.parent / "four_members.toml", "--progress"]
    ours, theirs = pty.openpty()
    try:
        watched = subprocess.run(words, input=trace, stdout=subprocess.PIPE, stderr=theirs, timeout=60)
        seen = os.read(ours, 65_536)
        alone = subprocess.run(words, input=trace, capture_output=True, timeout=60)
    except (OSError, subprocess.TimeoutExpired) as fault:
        return str(fault)
    finally:
        os.close(ours)
        os.close(theirs)
    if (watched.returncode, alone.returncode, alone.stderr) != (0, 0, b""):
        return f"status {watched.returncode} and {alone.returncode}, and without a terminal: {alone.stderr}"
    if seen != wanted:
        return f"told {seen} and not {wanted}"
    output = (folder / "first_route.out").read_bytes()
    return None if watched.stdout == alone.stdout == output else "what is written is another than without --progress"


def told_of_file(program, folder, trace, start, words=()):
    """What is told of the progress of a trace that is a file, read from this octet on, as lines and parts of a thousand."""
    words = [program, "--config", folder.parent / "four_members.toml", "--progress", *words]
    ours, theirs = pty.openpty()
    try:
        with tempfile.TemporaryFile() as given:
            given.write(trace)
            given.seek(start)
            subprocess.run(words, stdin=given, stdout=subprocess.DEVNULL, stderr=theirs, timeout=60, check=True)
        seen = os.read(ours, 65_536).decode()
    finally:
        os.close(ours)
        os.close(theirs)
    one = re.compile(r"(\d+) lines read, 1 UPDATEs heard, (\d+)\.(\d) %, \d+ (?:s|min|h) left *")
    found = [one.fullmatch(it) for it in seen.removesuffix("\r\n").split("\r")[1:]]
    return [(int(it[1]), int(it[2]) * 10 + int(it[3])) for it in found] if found and all(found) else seen


def part_differs(program, folder):
    """What is wrong with the part of a file that is told to be done, or None."""
    first = (folder / "first_route.trace").read_bytes()
    lines = first.count(b"\n")
    trace = first + b"#23456789\n" * 140_000 + b"moment 7\n"
    # Up to 16,384 octets were read ahead.
    ahead = 16_384 * 1000 // len(trace) + 1
    for name, front, words, whole in [
        ("from its beginning", b"", (), None),
        ("from its middle", b"turns\n" * 50_000, (), None),
        ("up to a line", b"", ("--until", "131100"), 131_100),
        ("up to a line that isn't there", b"", ("--until", "1000000"), None),
    ]:
        told = told_of_file(program, folder, front + trace, len(front), words)
        if isinstance(told, str) or [it[0] for it in told[:2]] != [65_536, 131_072]:
            return f"{name}: {told}"
        for line, part in told:
            octets = len(first) + 10 * (line - lines)
            least = line * 1000 // whole if whole else min(octets * 1000 // len(trace), 1000)
            if not least <= part <= least + (0 if whole else ahead):
                return f"{name}: line {line} is told to be {part} of 1000, and not {least}"
    return None


def listed(program, folder, trace, words):
    """The status, the lines behind the octets, and what is said, where a trace is played with these words."""
    words = [program, "--config", folder.parent / "four_members.toml", *words]
    run = subprocess.run(words, input=trace, capture_output=True, timeout=60)
    return run.returncode, [it for it in run.stdout.decode().splitlines() if not it.startswith("sent ")], run.stderr.decode()


def tables_differ(program, folder):
    """What is wrong with the tables that are listed at the end, or None."""
    first = (folder / "first_route.trace").read_bytes()
    route = "route b 198.51.100.0/24 4001010040020602010000fbf0400304c000020b"
    same = ["compared a: 0 due, 0 sent, 0 missing, 0 not due, 0 with other attributes", "compared b: 1 due, 1 sent, 0 missing, 0 not due, 0 with other attributes"]
    sent = ("--compare", str(folder / "first_route.out"))
    for name, trace, words, wanted in [
        ("one", first, ("--table", "b"), (0, [route], "")),
        ("one without routes", first, ("--table", "a"), (0, [], "")),
        ("several", first, ("--table=b", "--table", "a", "--table", "b"), (0, [route, route], "")),
        ("behind a line without its end", first[:-1], ("--table", "b"), (0, [route], "")),
        ("behind a table", first + b"table b", ("--table", "b"), (0, [route, route], "")),
        ("before the route is due", first, ("--table", "b", "--until", "15"), (0, [], "")),
        ("behind a fault", first + b"turns\n", ("--table", "b"), (1, ["line 18: unknown word"], "")),
        ("before what is compared", first, ("--table", "b", *sent), (0, [route, *same], "")),
        ("a name that is none", first, ("--table", "b", "--table", "z"), (2, [], "table: unknown client z\n")),
    ]:
        found = listed(program, folder, trace, words)
        if found != wanted:
            return f"{name}: {found}, and not {wanted}"
    return None


def unread_differs(program, folder):
    """What is wrong where nobody reads on behind the first line, or None."""
    first = (folder / "first_route.trace").read_bytes()
    trace = first + b"table b\n" * 50_000
    words = [program, "--config", folder.parent / "four_members.toml"]
    with tempfile.TemporaryFile() as given:
        given.write(trace)
        given.seek(0)
        with subprocess.Popen(words, stdin=given, stdout=subprocess.PIPE, stderr=subprocess.PIPE) as run:
            line = run.stdout.readline()
            run.stdout.close()
            told = run.stderr.read()
            status = run.wait(60)
    wanted = (folder / "first_route.out").read_bytes().splitlines(keepends=True)[0]
    if line != wanted:
        return f"wrote {line} and not {wanted}"
    return None if (status, told) == (3, b"") else f"status {status}, {told}"


def compared(program, folder, sent, words=()):
    """The status, what is written behind the octets, and what is said, where the first session is held against these octets."""
    with tempfile.NamedTemporaryFile() as file:
        file.write(sent)
        file.flush()
        words = [program, "--config", folder.parent / "four_members.toml", "--compare", file.name, *words]
        with open(folder / "first_route.trace", "rb") as trace:
            run = subprocess.run(words, stdin=trace, capture_output=True, timeout=60)
    lines = [it for it in run.stdout.decode().splitlines() if not it.startswith("sent ")]
    return run.returncode, lines, run.stderr.decode()


def table(missing=0, not_due=0, other=0, sent=1):
    """The rows of the two members, where the second one's is so."""
    row = "compared {}: {} due, {} sent, {} missing, {} not due, {} with other attributes".format
    return [row("a", 0, 0, 0, 0, 0), row("b", 1, sent, missing, not_due, other)]


def comparisons(folder):
    """What another server may have sent in the first session, by name, with the status and the lines that it must lead to."""
    out = (folder / "first_route.out").read_bytes()
    *before, update = out.splitlines(keepends=True)
    front, head = b"".join(before), b"sent b " + b"ff" * 16
    prefix = "198.51.100.0/24"
    # The same route, announced with another beside it that is withdrawn again; and the attributes of the one are another's.
    packed = update.replace(b"002f02", b"003302").replace(b"18c63364", b"18cb007118c63364")
    withdrawn = head + b"001b02000418cb00710000\n"
    yield "the same", out, (), (0, table(), "")
    yield "otherwise packed", front + packed + withdrawn, (), (0, table(), "")
    yield "in pieces", front + update[:61] + b"\nsent b " + update[61:], (), (0, table(), "")
    yield "a connection before", update + b"open b\n" + out, (), (0, table(), "")
    yield "missing", front, (), (1, [f"missing b {prefix}", *table(missing=1, sent=0)], "")
    yield "withdrawn", out + head + b"001b02000418c633640000\n", (), (1, [f"missing b {prefix}", *table(missing=1, sent=0)], "")
    yield "the session was ended", out + head + b"0015030602\n", (), (1, [f"missing b {prefix}", *table(missing=1, sent=0)], "")
    yield "not due", front + packed, (), (1, ["not-due b 203.0.113.0/24", *table(not_due=1, sent=2)], "")
    yield "other attributes", front + update.replace(b"0304c000020b", b"0304c0000263"), (), (1, [f"other b {prefix}", *table(other=1)], "")
    # A NOTIFICATION of no data, with which a session ends.
    cease = head + b"0015030600\n"
    yield "ended before, and in the middle of a message", cease + out + update[:43] + b"\n", (), (0, table(), "")
    yield "unreadable", out + head + b"001704000000ff\n", (), (1, ["unreadable b", table()[0]], "")
    yield "no marker, and then an end", out + b"sent b " + b"00" * 19 + b"\n" + cease, (), (1, ["unreadable b", table()[0]], "")
    others = b"# by hand\n\nclose b\nbusy b\nmemory b\nroute b 192.0.2.0/24 00\nrules accepted\nrules refused: syntax\nline 3: bad hex\n"
    written = b"unreadable b\nmissing b 192.0.2.0/24\nnot-due b 192.0.2.0/24\nother b 192.0.2.0/24\n" + "\n".join(table()).encode() + b"\n"
    yield "what a replay writes", others + out + written, (), (0, table(), "")
    yield "a word that is none", others + b"snet b 00\n", (), (2, [], "compare: line 10: unknown word\n")
    yield "a word of a trace", out + b"octets b 00\n", (), (2, [], "compare: line 6: unknown word\n")
    yield "a name that is none", b"sent z 00\n", (), (2, [], "compare: line 1: unknown client\n")
    yield "no hex", out + b"sent b 0\n", (), (2, [], "compare: line 6: bad hex\n")
    yield "words", b"sent b\n", (), (2, [], "compare: line 1: word count\n")
    yield "a number", b"after x\n", (), (2, [], "compare: line 1: bad number\n")
    until = front + b"after 14\n" + update
    nothing = [it.replace("b: 1 due, 1 sent", "b: 0 due, 0 sent") for it in table()]
    yield "up to a line", until, ("--until", "13"), (0, nothing, "")
    yield "up to the last line", until, ("--until", "17"), (0, table(), "")


def comparison_differs(program, folder):
    """What is wrong with what --compare writes, or None."""
    for name, sent, words, wanted in comparisons(folder):
        found = compared(program, folder, sent, words)
        if found != wanted:
            return f"{name}: {found}, and not {wanted}"
    return None


def play(program, folder, names=()):
    """Plays the sessions: each, and what is wrong with it or None."""
    chosen, names = names, names or sorted(it.stem for it in folder.glob("*.trace"))
    if not names:
        yield "sessions", f"none in {folder}"
    for name in names:
        wrong = ((workers, differs(program, folder, name, workers)) for workers in WORKERS)
        yield f"session {name}", next((f"{it[0]} workers: {it[1]}" for it in wrong if it[1]), None)
    if not chosen:
        yield "what --progress tells", progress_differs(program, folder)
        yield "what --progress tells of a file", part_differs(program, folder)
        yield "nobody reads on", unread_differs(program, folder)
        yield "what --compare tells", comparison_differs(program, folder)
        yield "what --table lists", tables_differ(program, folder)


def by_words(words):
    """The results, by the words of a command behind the play's name; None where these are others."""
    if len(words) >= 2:
        return play(pathlib.Path(words[0]).resolve(), pathlib.Path(words[1]), words[2:])
    return None
