"""The candidates for a client at a prefix (docs/DEFINITIONS.md, "What is due to a client" and "The choice"; RFC 7947, 2.3)."""
import collections
import ipaddress

from . import paths
from .attributes import path
from .rules import Way, first_match, passes, preference

# A client: its table of the configuration, its place, its session (None where it isn't Established) and the routes that it announced.
Client = collections.namedtuple("Client", "config place session table")

# A route that may be told to a client, with the rules that matched, or None, and what the choice looks at.
Candidate = collections.namedtuple("Candidate", "prefix attributes rules preference neighbour identifier address place")


def candidate(config, sender, receiver, prefix, without):
    """The route of one client for another at a prefix, where it is a candidate, or None."""
    attributes = sender.table.get(prefix)
    if sender.session is None or attributes is None:
        return None
    if config["as"] in paths.numbers(path(attributes)) and without != "servers-as":
        return None
    peer = receiver.config["as"] if without != "receiver" else None
    first = first_match(sender.config.get("import", []), Way(config, sender.config, None, prefix, attributes))
    second = first_match(receiver.config.get("export", []), Way(config, sender.config, peer, prefix, attributes))
    if any(not passes(config, rule) and without != kind for rule, kind in ((first, "import"), (second, "export"))):
        return None
    address = int(ipaddress.IPv4Address(sender.config["peer"]))
    return Candidate(
        prefix, attributes, (first, second), preference(first, second), sender.config["as"], sender.session.identifier, address, sender.place
    )


def candidates(config, clients, receiver, prefix, without):
    """All candidates for a client at a prefix."""
    others = [it for it in clients if it.place != receiver.place or without == "of-another"]
    found = (candidate(config, it, receiver, prefix, without) for it in others)
    return [it for it in found if it]
