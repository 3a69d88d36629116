#!/usr/bin/env python3
"""Writes a recorded session of a full exchange, for timing: recorded_session.py FOLDER [--members N] [--routes N]

FOLDER/full.toml is the configuration and FOLDER/full.trace the session: each member comes up and announces
its own routes (10 members of 100,000 unless said otherwise), three for each set of attributes, in octets lines of
some 60 UPDATEs. Behind one such line of each member comes a turn, and then room for every member.

What is timed is `time rs_replay --config full.toml < full.trace > full.out`; each route is told to all members but its
sender, so the routes told are members * (members - 1) * routes.
"""
import argparse
import pathlib

MARKER = b"\xff" * 16


def message(kind, body):
    return MARKER + (19 + len(body)).to_bytes(2, "big") + bytes([kind]) + body


def open_of(number, identifier):
    capability = bytes([2, 6, 65, 4]) + number.to_bytes(4, "big")
    body = bytes([4]) + number.to_bytes(2, "big") + (90).to_bytes(2, "big") + identifier
    return message(1, body + bytes([len(capability)]) + capability)


def update_of(number, identifier, set_number, prefixes):
    """Announces prefixes with a path that begins with the member's AS and differs for each set."""
    path = [number, 65536 + set_number % 4096, 131072 + set_number // 4096]
    segment = bytes([2, len(path)]) + b"".join(hop.to_bytes(4, "big") for hop in path)
    attributes = bytes([0x40, 1, 1, 0]) + bytes([0x40, 2, len(segment)]) + segment + bytes([0x40, 3, 4]) + identifier
    nlri = b"".join(bytes([24]) + prefix.to_bytes(3, "big") for prefix in prefixes)
    return message(2, bytes(2) + len(attributes).to_bytes(2, "big") + attributes + nlri)


def pieces(number, identifier, first, routes):
    """The member's UPDATEs, as many to a piece as 4,096 octets hold."""
    piece = b""
    for at in range(0, routes, 3):
        update = update_of(number, identifier, at // 3, range(first + at, first + min(at + 3, routes)))
        if len(piece) + len(update) > 4096:
            yield piece
            piece = b""
        piece += update
    yield piece


def configuration(folder, members):
    """Writes FOLDER/full.toml with so many members; answers their names."""
    names = [f"m{k}" for k in range(members)]
    with open(folder / "full.toml", "w") as config:
        config.write('as = 64500\nidentifier = "192.0.2.1"\nhold = 90\n')
        for k, name in enumerate(names):
            config.write(
                f'\n[[client]]\nname = "{name}"\nas = {64501 + k}\nlisten = "127.0.0.1:{17901 + k}"\npeer = "192.0.2.{11 + k}"\n'
            )
    return names


def main():
    parser = argparse.ArgumentParser()
    parser.add_argument("folder", type=pathlib.Path)
    parser.add_argument("--members", type=int, default=10)
    parser.add_argument("--routes", type=int, default=100000)
    options = parser.parse_args()
    names = configuration(options.folder, options.members)
    keepalive = message(4, b"")
    with open(options.folder / "full.trace", "w") as trace:
        feeds = []
        for k, name in enumerate(names):
            identifier = bytes([192, 0, 2, 11 + k])
            opening = (open_of(64501 + k, identifier) + keepalive).hex()
            trace.write(f"open {name}\noctets {name} {opening}\nroom {name} 1000\n")
            # From 1.0.0.0 on, each member a block of /24s of its own.
            feeds.append(pieces(64501 + k, identifier, 65536 + k * options.routes, options.routes))
        for round_ in zip(*feeds):
            for name, piece in zip(names, round_):
                trace.write(f"octets {name} {piece.hex()}\n")
            trace.write("turn\n")
            for name in names:
                trace.write(f"room {name} 10000000\n")


if __name__ == "__main__":
    main()
