#!/usr/bin/env python3
"""Measures lists alone: how long --check takes of an exchange's configuration, and how long a look-up in a list.

lists.py SERVED REPLAY [--runs N]

SERVED and REPLAY are a built rs_served and rs_replay. The configuration has 500 members with 351,236 registered prefixes in all, as
tools/exchange.py writes it. For the look-up a member announces 100,000 prefixes in each of twenty rounds, a turn behind each, to one
other; half of them are in a list of 50,000 prefixes. That is played with an import rule that looks each up, and without:
both pass all routes, and both read the list. The difference of the processor time, for each route that is decided, is
the look-up. Of several runs the least counts. Nothing is written in the repository.
"""
import argparse
import ipaddress
import os
import pathlib
import struct
import subprocess
import sys
import tempfile
import time

from registered import exchange, register

MEMBERS, PREFIXES = 500, 351_236
LISTED, ROUTES, ROUNDS = 50_000, 100_000, 20
IN_A_MESSAGE = 1_000
MARKER = b"\xff" * 16
# The first /24 that is announced; every second one is in the list.
FIRST = 0x10000000


def ran(words, given=None):
    """The seconds, the processor seconds and the peak memory in MB that a command took; it has to end well."""
    began = time.monotonic()
    process = subprocess.Popen(words, stdin=given or subprocess.DEVNULL, stdout=subprocess.DEVNULL, stderr=subprocess.DEVNULL)
    _, status, used = os.wait4(process.pid, 0)
    process.returncode = os.waitstatus_to_exitcode(status)
    if process.returncode:
        sys.exit(f"{words[0]}: status {process.returncode}")
    return time.monotonic() - began, used.ru_utime + used.ru_stime, used.ru_maxrss / 1024


def prefix(number):
    return f"{ipaddress.ip_address(FIRST + 256 * number)}/24"


def members():
    """What the members of an exchange announce, the first of them one prefix more where they aren't the same number."""
    least, more, at = PREFIXES // MEMBERS, PREFIXES % MEMBERS, 0
    for place in range(MEMBERS):
        count = least + (place < more)
        address = str(ipaddress.ip_address(0xC6120000 + place + 1))
        yield {"as": 1_000 + place, "address": address, "prefixes": [prefix(at + it) for it in range(count)], "origins": [1_000 + place]}
        at += count


def check(served, room, runs):
    """The least seconds and MB that --check takes of the exchange's configuration."""
    path = room / "exchange.toml"
    path.write_text(exchange(room, register(room, list(members()), only_announced=True), "127.0.0.2:1790"))
    took = [ran([*served, "--config", path, "--check"]) for _ in range(runs)]
    return min(it[0] for it in took), min(it[2] for it in took)


def configuration(rule):
    """Two members, a list, and the first one's import rule, if any."""
    entries = ",\n".join(f'"{prefix(2 * it)}"' for it in range(LISTED))
    text = 'as = 64500\nidentifier = "192.0.2.1"\nhold = 0\n'
    for name, number, place, more in (("a", 64496, 11, f"import = [{rule}]\n"), ("b", 64497, 12, "")):
        text += f'\n[[client]]\nname = "{name}"\nas = {number}\nlisten = "127.0.0.1:{17900 + place}"\npeer = "192.0.2.{place}"\n{more}'
    return f'{text}\n[[list]]\nname = "many"\nprefixes = [\n{entries}\n]\n'


def message(kind, body):
    return (MARKER + struct.pack(">HB", 19 + len(body), kind) + body).hex()


def trace():
    """The session: both come up, and in each round all prefixes are announced with another MED."""
    for name, number, place in (("a", 64496, 11), ("b", 64497, 12)):
        opening = message(1, struct.pack(">BHHIB", 4, number, 0, 0xC0000200 + place, 0))
        yield f"open {name}\noctets {name} {opening}{message(4, b'')}\nroom {name} 1000\n"
    for turn in range(ROUNDS):
        field = bytes.fromhex("40010100" + "400204" + "0201fbf0" + "400304c000020b" + "800404") + struct.pack(">I", turn)
        for at in range(0, ROUTES, IN_A_MESSAGE):
            nlri = b"".join(b"\x18" + struct.pack(">I", FIRST + 256 * it)[:3] for it in range(at, at + IN_A_MESSAGE))
            octets = message(2, b"\0\0" + struct.pack(">H", len(field)) + field + nlri)
            yield f"octets a {octets}\n"
        yield "turn\nroom b 1000000000\n"


def look_up(replay, room, runs):
    """The nanoseconds of a look-up for each route that is decided."""
    session, least = room / "trace", {}
    session.write_text("".join(trace()))
    for rule in ("", '{ prefix_in = "many", action = "pass" }') * runs:
        path = room / "lists.toml"
        path.write_text(configuration(rule))
        with open(session, "rb") as given:
            least[rule] = min(ran([*replay, "--config", path], given)[1], least.get(rule, float("inf")))
    without, beside = least.values()
    return (beside - without) / (ROUTES * ROUNDS) * 1e9


def measured(served, replay, runs):
    """What was measured, in lines for the page."""
    with tempfile.TemporaryDirectory(prefix="lists-") as folder:
        room = pathlib.Path(folder)
        seconds, memory = check(served, room, runs)
        yield f"`--check` of {MEMBERS} members with {PREFIXES:,} prefixes takes {seconds:.2f} s and {memory:.0f} MB."
        yield f"A look-up in a list of {LISTED:,} prefixes takes {look_up(replay, room, runs):.0f} ns of each route that is decided for a member."


def main():
    parser = argparse.ArgumentParser(description=__doc__, formatter_class=argparse.RawDescriptionHelpFormatter)
    parser.add_argument("served")
    parser.add_argument("replay")
    parser.add_argument("--runs", type=int, default=3)
    options = parser.parse_args()
    for line in measured([options.served], [options.replay], options.runs):
        print(line, flush=True)
    print(f"Load {os.getloadavg()[0]:.1f} at the end, {os.cpu_count()} processors")


if __name__ == "__main__":
    main()
