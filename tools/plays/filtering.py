"""Plays routes to a built rs_replay by the example of an exchange, and says which go where they must not, or don't go where they must.

play.py filtering PROGRAM

A row is a prefix that alpha announces by ROUTE with communities behind it, and whether the route goes to beta and to gamma. What beta
announces so goes to nobody: its NEXT_HOP isn't the sender's. Of what is no action of the example, what members are sent has all.
"""
import pathlib
import subprocess

from .matching import ROUTE, comes_up, messages, route

EXAMPLES = pathlib.Path(__file__).resolve().parents[2] / "examples"
MEMBERS = (("alpha", 64496, 0xC000020B), ("beta", 64497, 0xC000020C), ("gamma", 65551, 0xC000020D))

# Prefix, communities as octets, and whether alpha's route goes to beta and to gamma.
FILTERED = (
    ("198.51.100.0/24", "", True, True),
    ("198.51.100.0/25", "", False, False),
    # beta's, and not alpha's
    ("203.0.113.0/24", "", False, False),
    ("0.0.0.0/0", "", False, False),
    ("10.1.0.0/16", "", False, False),
    ("100.64.0.0/10", "", False, False),
    ("192.0.2.0/24", "", False, False),
    ("224.0.0.0/8", "", False, False),
    # 0:64500, to no member
    ("198.51.100.0/24", "c008040000fbf4", False, False),
    # 0:64497, not to beta
    ("198.51.100.0/24", "c008040000fbf1", False, True),
    # 0:64500 and 64500:64497, to beta alone
    ("198.51.100.0/24", "c008080000fbf4fbf4fbf1", True, False),
    # 0:15 names no member: gamma's AS number, 65551, has more than 16 bits
    ("198.51.100.0/24", "c008040000000f", True, True),
    # 64500:0:0, to no member
    ("198.51.100.0/24", "c0200c0000fbf40000000000000000", False, False),
    # 64500:0:65551, not to gamma
    ("198.51.100.0/24", "c0200c0000fbf4000000000001000f", True, False),
    # 0:64500 and 64500:1:65551, to gamma alone
    ("198.51.100.0/24", "c008040000fbf4c0200c0000fbf4000000010001000f", False, True),
)

# What alpha says: the communities 0:64498, 64500:64497 and 65535:65281, and the large ones 64500:1:65551 and 64496:1:1.
SAID = "c0080c0000fbf2fbf4fbf1ffffff01c020180000fbf4000000010001000f0000fbf00000000100000001"
# What is no action stays: 65535:65281 and 64496:1:1.
LEFT = "c00804ffffff01c0200c0000fbf00000000100000001"


def sent(program, sender, octets):
    """The UPDATEs that each member is sent where one sends this; or what is wrong."""
    lines = [line for member in MEMBERS for line in comes_up(*member)]
    lines += [f"octets {sender} {octets.hex()}", "turn", *(f"room {name} 5000" for name, *_ in MEMBERS)]
    words = [program, "--config", EXAMPLES / "exchange.toml", "--config", EXAMPLES / "exchange.lists.toml"]
    run = subprocess.run(words, input="\n".join(lines), capture_output=True, timeout=60, text=True)
    written = run.stdout.splitlines()
    if run.returncode or run.stderr or any(not line.startswith("sent ") for line in written):
        return f"status {run.returncode}: {written}, {run.stderr}"
    found = {name: messages([line for line in written if line.startswith(f"sent {name} ")]) for name, *_ in MEMBERS}
    if any([kind for kind, _ in of_one[:2]] != [1, 4] for of_one in found.values()):
        return f"the members don't come up: {written}"
    return {name: [octets for _, octets in of_one[2:]] for name, of_one in found.items()}


def goes_otherwise(program, sender, prefix, communities, wanted):
    """What is wrong with where a route goes, or None."""
    found = sent(program, sender, route(ROUTE + communities, prefix))
    if isinstance(found, str):
        return found
    goes = [name for name, octets in found.items() if octets]
    return None if goes == wanted else f"it goes to {goes} and not to {wanted}: {found}"


def play_filtering(program):
    """Tries each row: what was tried, and what is wrong or None."""
    for prefix, communities, beta, gamma in FILTERED:
        wanted = ["beta"] * beta + ["gamma"] * gamma
        yield f"example of an exchange: {prefix} {communities}", goes_otherwise(program, "alpha", prefix, communities, wanted)
        yield f"example of an exchange, from beta: {prefix} {communities}", goes_otherwise(program, "beta", prefix, communities, [])
    found, left = sent(program, "alpha", route(ROUTE + SAID, "198.51.100.0/24")), [route(ROUTE + LEFT, "198.51.100.0/24").hex()]
    wanted = {"alpha": [], "beta": left, "gamma": left}
    yield "example of an exchange: what is no action stays", None if found == wanted else f"{found} and not {wanted}"


def by_words(words):
    """The results, by the words of a command behind the play's name; None where these are others."""
    if len(words) == 1:
        return play_filtering(pathlib.Path(words[0]).resolve())
    return None
