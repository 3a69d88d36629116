"""Plays generated routes to a built rs_replay, and holds what its clients are sent against the reading of read_rules.py.

play.py rules PROGRAM [ROUTES [SEED]]

The gate plays ROUTES by SEED, so that the counts below are the same in each run; another seed brings other routes.

Each case is a configuration of fuzz.py, and members that announce a few prefixes, no two of them the same, with attributes of fuzz.py:
so the rules alone say what each other member is sent. It is counted for how many routes a rule hung on each key, as its other
tests held, and for how many of these the key's test held; of communities that are taken away, whether there was one to take. At
least one route in twenty must be on either side of each.
"""
import collections
import pathlib
import random
import subprocess
import tempfile
import tomllib

from fuzz import KEEPALIVE, NAMES, PREFIXES, Peer, configuration, dotted, spelt, update

from .read_rules import Way, passed_on, read_attributes, read_prefixes

ROUTES, SEED = 1_000, 1
# Of each key one route in so many, at least, is on either side.
PART = 20
HEADER, UPDATE = 19, 2
KEYS = (
    "prefix", "prefix_in", "from", "path_has", "path_longer", "path_in", "origin_as", "origin_in", "first_as_is_peer",
    "community", "community with *", "community with peer", "large_community", "large_community with *",
    "large_community with peer", "next_hop_is_peer", "strip", "strip with *", "strip_large", "strip_large with *", "use",
)


def comes_up(draw, peer):
    """The lines by which a member comes up, with AS numbers in four octets."""
    octets = peer.open(draw)
    while not peer.is_four:
        octets = peer.open(draw)
    return [f"open {peer.name}", f"octets {peer.name} {(octets + KEEPALIVE).hex()}", f"room {peer.name} 100000"]


def case(draw):
    """A configuration, the lines of a session, and its routes: sender, prefix and attributes of each."""
    text = configuration(draw, (draw.choice(["true", "false"]), "true"), part=1, most=8, has_limits=False)
    peers = [Peer(place) for place in range(len(NAMES))]
    lines, routes = [line for peer in peers for line in comes_up(draw, peer)], []
    for prefix in draw.sample(PREFIXES, len(PREFIXES)):
        peer = draw.choice(peers)
        field = peer.attributes(draw)
        routes.append((peer.name, prefix, read_attributes(field)))
        lines.append(f"octets {peer.name} {update(b'', field, spelt(prefix)).hex()}")
    return text, [*lines, "turn", *(f"room {name} 1000000" for name in NAMES)], routes


def tables(output):
    """What each client holds after all that it was sent: attributes by prefix."""
    sent, found = collections.defaultdict(bytes), {name: {} for name in NAMES}
    for line in output.splitlines():
        word, name, *octets = line.split(" ")
        if word == "sent":
            sent[name] += bytes.fromhex(octets[0])
    for name, octets in sent.items():
        at = 0
        while at < len(octets):
            size, kind = int.from_bytes(octets[at + 16 : at + 18]), octets[at + 18]
            if kind == UPDATE:
                hear(found[name], octets[at + HEADER : at + size])
            at += size
    return found


def hear(table, body):
    """One UPDATE more (RFC 4271, 4.3)."""
    size = int.from_bytes(body[:2])
    for prefix in read_prefixes(body[2 : 2 + size]):
        table.pop(prefix, None)
    rest = body[2 + size :]
    size = int.from_bytes(rest[:2])
    for prefix in read_prefixes(rest[2 + size :]):
        table[prefix] = read_attributes(rest[2 : 2 + size])


def wanted(text, routes, counts):
    """What each client is to hold, by the reading; `counts` has each key with both outcomes."""
    config, found = tomllib.loads(text), {name: {} for name in NAMES}
    clients = {it["name"]: it for it in config["client"]}
    for sender, prefix, attributes in routes:
        seen = set()
        for receiver in NAMES:
            if receiver != sender:
                sent = passed_on(Way(config, clients[sender], clients[receiver]), prefix, attributes, seen)
                if sent is not None:
                    found[receiver][prefix] = sent
        counts.update(seen)
    return found


def played(program, text, lines):
    """The status, what was written, and what was said."""
    with tempfile.NamedTemporaryFile("w", suffix=".toml") as file:
        file.write(text)
        file.flush()
        run = subprocess.run([program, "--config", file.name], input="\n".join(lines), capture_output=True, timeout=60, text=True)
    return run


def difference(due, held):
    """The first route with which two tables differ, in words; or None."""
    for name in NAMES:
        for prefix in sorted(due[name].keys() | held[name].keys()):
            one, other = due[name].get(prefix), held[name].get(prefix)
            if one != other:
                return f"{name} is to hold {dotted(prefix)} with {one}, and holds {other}"
    return None


def play_rules(program, number, seed):
    """The results of so many routes."""
    if not program.exists():
        yield "rules", f"{program} isn't there"
        return
    draw, counts, routes, passed = random.Random(seed), collections.Counter(), 0, 0
    while routes < number:
        text, lines, announced = case(draw)
        due = wanted(text, announced, counts)
        run = played(program, text, lines)
        wrong = run.stderr or difference(due, tables(run.stdout))
        if run.returncode or wrong:
            yield f"rules, seed {seed}, routes from {routes} on", "\n".join([f"status {run.returncode}: {wrong}", text, *lines])
        routes += len(announced)
        passed += sum(map(len, due.values()))
    yield f"{routes} routes of seed {seed}, passed on {passed} times by rules", None if passed else "no route was passed on"
    for key in KEYS:
        match, miss = counts[key, True], counts[key, False]
        few = min(match, miss) < routes // PART
        yield f"rules: {key}: {match} routes match, {miss} don't", f"fewer than {routes // PART}" if few else None


def by_words(words):
    """The results, by the words of a command behind the play's name; None where these are others."""
    if not 1 <= len(words) <= 3:
        return None
    number = int(words[1]) if len(words) > 1 else ROUTES
    chosen = int(words[2]) if len(words) > 2 else SEED
    return play_rules(pathlib.Path(words[0]).resolve(), number, chosen)
