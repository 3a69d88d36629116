"""What the clients of a recorded session hold, asked of the plain function (`plain`).

A session is played with two things beside it. A spare client connects first, and again after each line: it is busy then,
which shows in the output where what a line brought about ends. Behind the session stand a turn and room for all, by which
each Established client is drained. What came from each client since its connection came, and what was sent to it, is then
given to the plain function, which says whether the one is what the others ask for.
"""
import collections
import subprocess
import tempfile
import tomllib

from plain.asking import Link, answer

SPARE = "spare"
SPARE_CLIENT = f'\n[[client]]\nname = "{SPARE}"\nas = 65535\nlisten = "127.0.0.1:65535"\npeer = "203.0.113.255"\n'
ALL = 2**64 - 1
SECONDS = 120

# A session that was played: its configuration, the lines with what each wrote, what it wrote after them, its status, and
# what was said on standard error.
Played = collections.namedtuple("Played", "config lines rest status errors")


def with_spare(line):
    """The line, and where it replaces the rules also those with the spare client."""
    word, *rest = line.split(" ")
    if word == "rules" and rest:
        return f"rules {rest[0]}{SPARE_CLIENT.encode().hex()}"
    return line


def names(config):
    return [it["name"] for it in config["client"]]


def drain(config):
    """The lines by which each Established client is drained."""
    return ["turn", *(f"room {name} {ALL}" for name in names(config))]


def play(program, text, lines, workers=1, environment=None, descriptors=()):
    """Plays a session by the configuration of this text."""
    trace = [f"open {SPARE}"]
    for line in lines:
        trace += [with_spare(line), f"open {SPARE}"]
    with tempfile.NamedTemporaryFile("w", suffix=".toml") as file:
        file.write(text + SPARE_CLIENT)
        file.flush()
        run = subprocess.run(
            [program, "--config", file.name, "--workers", str(workers)],
            input="\n".join(trace).encode(),
            capture_output=True,
            timeout=SECONDS,
            env=environment,
            pass_fds=descriptors,
        )
    parts = [[]]
    for line in run.stdout.decode().splitlines():
        if line == f"busy {SPARE}":
            parts.append([])
        else:
            parts[-1].append(line)
    *parts, rest = parts
    return Played(tomllib.loads(text), list(zip(lines, parts)), rest, run.returncode, run.stderr.decode())


def links(played):
    """The configuration that held last, what passed on each link that is connected, and on each that the server closed."""
    config, found, closed, text = played.config, {}, {}, b""
    for line, written in played.lines:
        word, *words = line.split(" ")
        if word == "open" and f"busy {words[0]}" not in written:
            found[words[0]] = Link(bytearray(), bytearray())
        elif word == "octets" and words[0] in found and len(words) > 1:
            found[words[0]].heard.extend(bytes.fromhex(words[1]))
        elif word in ("lost", "shutdown"):
            # Nothing that comes after the end of a session counts until the next connection.
            found.pop(words[0], None)
        elif word == "more":
            text += bytes.fromhex(words[0])
        elif word == "rules":
            if "rules accepted" in written:
                config = tomllib.loads((text + bytes.fromhex(words[0])).decode())
            text = b""
        for it in written:
            what, name, *octets = it.split(" ")
            if what == "sent" and name in found:
                found[name].sent.extend(bytes.fromhex(octets[0]))
            elif what == "close" and name in found:
                closed[name] = found.pop(name)
    return config, found, {name: link for name, link in closed.items() if name not in found}


def asked(played, without=None, is_closed_for_faults=False):
    """What the plain function answers of a session, read without a sentence or with all; links are closed for faults alone, or not."""
    config, found, closed = links(played)
    if is_closed_for_faults:
        found |= {name: Link(link.heard, is_closed=True) for name, link in closed.items()}
    return answer(config, found, without)
