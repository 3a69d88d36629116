"""Whether the clients of a route server hold what they are to hold (docs/DEFINITIONS.md, "What a client's octets mean, and what is due
by a run": due, told and served)."""
import collections

from . import SENTENCES
from .candidates import Client
from .choice import due
from .hearing import Reader, heard
from .octets import LONGEST, spelt_size
from .passing import passed_on

# What passed between a client and the server since its connection came, and whether the server closed it, not for a timer, a
# limit, want of memory or the operator's command.
Link = collections.namedtuple("Link", "heard sent is_closed", defaults=[b"", b"", False])

# What is wrong with what the clients hold, or None, and how many routes they hold.
Answer = collections.namedtuple("Answer", "wrong routes")


def dotted(prefix):
    bits, length = prefix
    return ".".join(map(str, bits.to_bytes(4, "big"))) + f"/{length}"


def clients_of(config, links, without):
    """The clients, by what their octets mean, and the names of those whose connections were closed though nothing was at fault."""
    clients, closed = [], []
    for place, it in enumerate(config["client"]):
        link = links.get(it["name"], Link())
        reader = Reader(it["as"], config.get("extended", False), config.get("refresh", False), None, without)
        found = heard(bytes(link.heard), reader)
        counts = found.is_up or without == "established"
        clients.append(Client(it, place, found.session if counts else None, found.table if counts else {}))
        if link.is_closed and found.is_good:
            closed.append(it["name"])
    return clients, closed


def told(link, session):
    """The table that was told to a client, or None where what was sent is not whole messages without a fault."""
    reader = Reader(None, session.limit > LONGEST, False, session.size)
    found = heard(bytes(link.sent), reader)
    return found.table if found.is_good and not found.rest else None


def asks_for_prefixes(config):
    """A rule asks for the prefix of a route."""
    lists = [*(it.get(kind, []) for it in config["client"] for kind in ("import", "export")), *(it["rules"] for it in config.get("rules", []))]
    return any(key in rule for rules in lists for rule in rules for key in ("prefix", "prefix_in"))


def differs(config, clients, receiver, table, without):
    """The prefixes at which a client holds another route than it is to hold, by rising prefix. Where no rule asks for prefixes,
    what is due at one is due at each of as many octets of which the clients announced the same."""
    by_prefix, decided = asks_for_prefixes(config), {}
    for prefix in sorted({*table, *(prefix for it in clients for prefix in it.table)}):
        alike = prefix if by_prefix else spelt_size(prefix), *(id(it.table.get(prefix)) for it in clients)
        if alike not in decided:
            best = due(config, clients, receiver, prefix, without)
            decided[alike] = passed_on(best, without) if best else None
        if decided[alike] != table.get(prefix):
            yield prefix, decided[alike]


def answer(config, links, without=None):
    """Whether the Established clients of a configuration hold what they are to hold by these links, each a `Link` by its client's
    name; the definitions are read without a sentence or with all."""
    if without is not None and without not in SENTENCES:
        raise ValueError(f"no sentence is {without}")
    clients, closed = clients_of(config, links, without)
    if closed:
        return Answer(f"{closed[0]} was closed, and nothing that came from it was at fault", 0)
    routes = 0
    for client in clients:
        if client.session is None:
            continue
        name = client.config["name"]
        table = told(links.get(name, Link()), client.session)
        if table is None:
            return Answer(f"what was sent to {name} is not whole messages without a fault", 0)
        for prefix, wanted in differs(config, clients, client, table, without):
            return Answer(f"{name} holds {table.get(prefix)} and not {wanted} at {dotted(prefix)}", 0)
        routes += len(table)
    return Answer(None, routes)
