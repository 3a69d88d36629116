#!/usr/bin/env python3
"""Checks that the example configurations are those that a test of the configuration reads, and a page's lines those of its tool.

A test can read no files, so it has their texts as literals. This compares them, octet for octet. The data of
rs_replay has one of them too. docs/REPLAY.md tells of a leaked route by lines of read_session.py.
"""
import ipaddress
import pathlib
import re

import read_session
from results import end, tell

TOP = pathlib.Path(__file__).resolve().parent.parent
TESTS = TOP / "crates/rs_tests/src/policy/examples.rt"
EXAMPLES = {
    "FOUR_MEMBERS": "four_members.toml", "SMALL": "small.toml", "EXCHANGE": "exchange.toml", "EXCHANGE_LISTS": "exchange.lists.toml",
}
COPY = TOP / "crates/rs_replay/data/four_members.toml"
PAGE = TOP / "docs/REPLAY.md"
LEAK = TOP / "examples/sessions"


def told(file, **asked):
    """What read_session.py tells of a session."""
    lines = []
    assert read_session.read_all(file.open(), lines.append, **asked) == 0
    return lines


def told_of_the_leak():
    """What it tells of the leaked route, as the page asks it."""
    within = told(LEAK / "route_leaked.trace", prefix=ipaddress.ip_network("203.0.113.0/24"))
    return within, told(LEAK / "route_leaked.out", number=64511), told(LEAK / "route_leak_dropped.out", number=64511)


def check():
    """Each example, and what is wrong with it or None."""
    tests = TESTS.read_text()
    for name, file in EXAMPLES.items():
        literal = re.search(rf'^const {name}: &str =\s*r#"(.*?)"#;', tests, re.DOTALL | re.MULTILINE)
        alike = literal and literal[1] == (TOP / "examples" / file).read_text()
        yield f"example {file}", None if alike else f"not as in {TESTS.relative_to(TOP)}"
    alike = COPY.read_text() == (TOP / "examples/four_members.toml").read_text()
    yield "example four_members.toml of rs_replay", None if alike else f"not as in {COPY.relative_to(TOP)}"
    shown = re.findall(r"^    (line \d+.*)$", PAGE.read_text(), re.MULTILINE)
    heard, sent, dropped = told_of_the_leak()
    count = len(heard)
    alike = count > 0 and shown[:count] == heard and len(shown) > count and shown[count:] == sent[: len(shown) - count] and not dropped
    yield "example of a leaked route", None if alike else f"{PAGE.relative_to(TOP)} shows other lines than tools/read_session.py tells"


if __name__ == "__main__":
    end(*tell(check()))
