"""The choice (docs/DEFINITIONS.md, "The choice"; RFC 4271, 9.1.1 and 9.1.2.2 a, b, c, f and g): filters, one after the other, on the
whole set."""
from . import paths
from .attributes import MULTI_EXIT_DISC, ORIGIN, path, value
from .candidates import candidates
from .octets import number
from .passing import fits


def path_length(it):
    return paths.length(path(it.attributes))


def has_lower_med(one, other):
    """One has a lower MULTI_EXIT_DISC than another of the same neighbouring AS; a missing one counts 0."""
    one_med, other_med = (number(value(it.attributes, MULTI_EXIT_DISC)) for it in (one, other))
    return one.neighbour == other.neighbour and one_med < other_med


# In which respect each filter finds one better than another, by the names of the sentences.
FILTERS = {
    "preference": lambda one, other: one.preference > other.preference,
    "path": lambda one, other: path_length(one) < path_length(other),
    "origin": lambda one, other: number(value(one.attributes, ORIGIN)) < number(value(other.attributes, ORIGIN)),
    "med": has_lower_med,
    "identifier": lambda one, other: one.identifier < other.identifier,
    "address": lambda one, other: one.address < other.address,
    "place": lambda one, other: one.place < other.place,
}


def unbeaten(is_better, all_of_them):
    """Those than which no other is better."""
    return [one for one in all_of_them if not any(is_better(other, one) for other in all_of_them)]


def due(config, clients, receiver, prefix, without):
    """What a client is to hold at a prefix: the best of the candidates, where it fits, or None."""
    left = candidates(config, clients, receiver, prefix, without)
    for name, is_better in FILTERS.items():
        if name != without:
            left = unbeaten(is_better, left)
    if not left or without != "fits" and not fits(left[0], receiver.session):
        return None
    return left[0]
