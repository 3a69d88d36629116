"""Paths of AS numbers (docs/DEFINITIONS.md, "Path attributes"; RFC 4271, 4.3 and 9.1.2.2; RFC 5065, 3; RFC 6793, 4.2)."""
import functools
import struct

from .octets import Malformed, cut

AS_SET, AS_SEQUENCE, AS_CONFED_SEQUENCE, AS_CONFED_SET = 1, 2, 3, 4
PLAIN = (AS_SET, AS_SEQUENCE)
WITH_CONFEDERATIONS = (*PLAIN, AS_CONFED_SEQUENCE, AS_CONFED_SET)
CODES = {2: "H", 4: "I"}


@functools.lru_cache(4096)
def segments(octets, size, kinds=PLAIN):
    """The segments of a path, in which AS numbers have so many octets, each a type of these and its numbers."""
    found = []
    while octets:
        (kind, count), octets = cut(octets, 2)
        if kind not in kinds or not count:
            raise Malformed(f"a segment of type {kind} with {count} numbers")
        numbers, octets = cut(octets, count * size)
        found.append((kind, struct.unpack(f">{count}{CODES[size]}", numbers)))
    return tuple(found)


def spelt(path, size):
    """The octets of a path in which each AS number has so many."""
    return b"".join(struct.pack(f">BB{len(numbers)}{CODES[size]}", kind, len(numbers), *numbers) for kind, numbers in path)


def length(path):
    """A set counts 1, and each number of a sequence (RFC 4271, 9.1.2.2, a)."""
    return sum(len(numbers) if kind == AS_SEQUENCE else 1 for kind, numbers in path)


def numbers(path):
    """All AS numbers, those of sets and those of sequences."""
    return [number for _, segment in path for number in segment]


def origin_as(path):
    """The last number of the last segment, where that is a sequence, or None."""
    return path[-1][1][-1] if path and path[-1][0] == AS_SEQUENCE else None


def leading(path, count):
    """The front of a path that has this length."""
    found = []
    for kind, numbers in path:
        if not count:
            break
        taken = numbers[:count] if kind == AS_SEQUENCE else numbers
        found.append((kind, taken))
        count -= len(taken) if kind == AS_SEQUENCE else 1
    return found


def merged(path, as4_path):
    """AS_PATH of a two-octet peer, with AS4_PATH for as much of its end as that says, but for segments of confederations
    (RFC 6793, 4.2.3 and 6); alone where that is longer, or has no segment left."""
    plain = [it for it in as4_path if it[0] in PLAIN]
    ahead = length(path) - length(plain)
    return list(path) if ahead < 0 else leading(path, ahead) + plain
