"""Plays random sessions to a built rs_replay by rules that all members use, by the same rules written out in the list of each, by
others in each list, and by these behind a rule that matches no route.

play.py shared PROGRAM [CASES [SEED]]

What is due to a member serves the others that `use` the same rules, and those with rules of their own where each of these asks
for a community and marks tell that a route has none: what is written must be the same. Behind a rule that asks for something
else each rule is asked, and each member decided by itself, and the same must be written. The rules are the export rules of
examples/exchange.toml, which name the receiver, or some of them, with the last one, which asks for nothing, or without it.
Members announce and withdraw prefixes that fill blocks of rows, of which some have communities by which these rules tell members
apart, or others; some take little, and some are lost. Each session is played by 1 and by 3 workers.
"""
import ipaddress
import pathlib
import random
import re
import struct
import subprocess
import tempfile

from fuzz import attribute, spelt, update

from .faults import TOP
from .matching import comes_up

CASES = 60
EXAMPLE = pathlib.Path(__file__).resolve().parent.parent.parent / "examples" / "exchange.toml"
# No path of a session has this AS number.
MATCHES_NOTHING = '{ path_has = 4199999999, action = "drop" }'
SERVER, FIRST, ADDRESS = 64500, 64496, 0xC000020B
PREFIXES = 80


def example_rules():
    """The export rules of the example, a line each."""
    text = EXAMPLE.read_text().partition('name = "actions"')[2]
    return re.findall(r"^    (\{.*\}),$", text, re.M)


def configuration(lists, used=()):
    """Members with these lists of export rules, and the rules that they use."""
    text = TOP
    for place, own in enumerate(lists):
        text += f'\n[[client]]\nname = "m{place}"\nas = {FIRST + place}\nlisten = "127.0.0.1:{17901 + place}"\npeer = "{ipaddress.ip_address(ADDRESS + place)}"\n'
        text += f"export = [{', '.join(own)}]\n"
    if used:
        text += f'\n[[rules]]\nname = "actions"\nrules = [{", ".join(used)}]\n'
    return text


def behind(lists):
    """These lists behind a rule that matches no route."""
    return [[MATCHES_NOTHING, *own] for own in lists]


def tagged(draw, numbers):
    """Communities or large ones that may name one of these AS numbers, or nothing."""
    kind = draw.randrange(10)
    if kind < 3:
        return attribute(0xC0, 8, struct.pack(">HH", draw.choice([0, SERVER]), draw.choice(numbers)))
    if kind < 5:
        return attribute(0xC0, 32, struct.pack(">III", SERVER, draw.randrange(3), draw.choice(numbers)))
    return attribute(0xC0, 8, struct.pack(">HH", 64511, 1)) if kind < 6 else b""


def told(draw, place, members):
    """What a member announces or withdraws: a block of prefixes, some of it, or more."""
    first = draw.choice([0, 16, 32, 48, draw.randrange(64)])
    last = min(first + draw.choice([1, 3, 16, 16, 20, 32]), PREFIXES)
    prefixes = b"".join(spelt((0x0A000000 + (it << 8), 24)) for it in range(first, last))
    if draw.random() < 0.25:
        return update(prefixes, b"", b"")
    path = [FIRST + place, *[65000 + draw.randrange(3)] * draw.randrange(3)]
    field = attribute(0x40, 1, b"\0") + attribute(0x40, 2, struct.pack(f">BB{len(path)}I", 2, len(path), *path))
    field += attribute(0x40, 3, struct.pack(">I", ADDRESS + place))
    return update(b"", field + tagged(draw, [*range(FIRST, FIRST + members), SERVER, 0, 7]), prefixes)


def session(draw, members):
    """The lines of a session."""
    begins = lambda place: comes_up(f"m{place}", FIRST + place, ADDRESS + place)
    up, lines = set(range(members)), [line for place in range(members) for line in begins(place)]
    for _ in range(draw.randrange(4, 15)):
        for place in draw.choices(range(members), k=draw.randrange(1, 5)):
            if place not in up:
                up.add(place)
                lines += begins(place)
            elif draw.random() < 0.06:
                up.discard(place)
                lines.append(f"lost m{place}")
            else:
                lines.append(f"octets m{place} {told(draw, place, members).hex()}")
        lines.append("turn")
        lines += [f"room m{place} {draw.choice([100, 100_000, 100_000])}" for place in sorted(up) if draw.random() < 0.8]
    return [*lines, *(f"room m{place} 1000000" for place in sorted(up))]


def written(program, text, lines, workers):
    """What is written by this configuration, and how the program ended."""
    with tempfile.NamedTemporaryFile("w", suffix=".toml") as file:
        file.write(text)
        file.flush()
        words = [program, "--config", file.name, "--workers", str(workers)]
        run = subprocess.run(words, input="\n".join([*lines, ""]), capture_output=True, text=True, timeout=60)
        return run.returncode, run.stderr, run.stdout


def chosen_rules(draw):
    """All of the rules, some and the last one, or some of those that ask for a community."""
    rules = example_rules()
    some = [it for it in rules[:-1] if draw.random() < 0.7]
    return draw.choice([rules, some + rules[-1:], some or rules[:1]])


def lists_apart(draw, members):
    """For each member some of the rules that ask for a community."""
    rules = example_rules()[:-1]
    return [[it for it in rules if draw.random() < 0.5] or [draw.choice(rules)] for _ in range(members)]


def differs(program, draw):
    """What is wrong in one session, or None."""
    members, rules = draw.randrange(3, 8), chosen_rules(draw)
    lines, alike, apart = session(draw, members), [rules] * members, lists_apart(draw, members)
    plays = [
        (configuration(alike), 1, "where each has the rules"),
        (configuration([['{ use = "actions" }']] * members, rules), 1, "where all use the rules"),
        (configuration([['{ use = "actions" }']] * members, rules), 3, "by 3 workers where all use the rules"),
        (configuration(alike), 3, "by 3 workers where each has the rules"),
        (configuration(behind(alike)), 1, "where each rule is asked"),
    ], [
        (configuration(apart), 1, "where each has others"),
        (configuration(apart), 3, "by 3 workers where each has others"),
        (configuration(behind(apart)), 1, "where each of others is asked"),
    ]
    for (text, workers, _), *others in plays:
        first = written(program, text, lines, workers)
        if first[0] != 0 or first[1]:
            return f"status {first[0]}: {first[1]}"
        for text, workers, how in others:
            if written(program, text, lines, workers) != first:
                return f"otherwise {how}:\n{text}\n" + "\n".join(lines)
    return None


def play_shared(program, cases=CASES, seed=0):
    """What is wrong in so many sessions, or None."""
    if len(example_rules()) < 5:
        yield "rules that members share", f"{EXAMPLE} has the export rules no more"
        return
    wrong = (differs(program, random.Random(f"{seed}/{case}")) for case in range(cases))
    yield f"{cases} sessions by rules that members share", next(filter(None, wrong), None)


def by_words(words):
    """The results of this play by these words, or None where they are none of it."""
    if not 1 <= len(words) <= 3:
        return None
    return play_shared(words[0], *map(int, words[1:]))
