"""The rules that works are played with, in our configuration and, for BIRD, in its language; all routes pass all of them.

- `exchange`: what tools/exchange.py writes (registered.py): lists of bogons, prefixes and AS numbers, and action communities.
- `example`: the rules of examples/exchange.toml, each written out, with the lists that registered.py makes up.
- `communities`: 62 rules in each member's export list, each of which drops the routes with a community of its own, or a large one.
"""
import pathlib
import re

import registered

EXAMPLE = registered.EXCHANGE.parent.parent / "examples" / "exchange.toml"
RULES_A_MEMBER = 62


def example_rules():
    """The rules of the example's `[[rules]]`, and a client's lists as the example has them for its client `alpha`."""
    text = EXAMPLE.read_text()
    client, _, _ = text.partition('name = "alpha"')[2].partition("[[client]]")
    lists = client[client.index("import = ") :]
    # NEXT_HOPs of the load are no addresses of its clients: see registered.py.
    return text[text.index("[[rules]]") :].replace("next_hop_is_peer = false", "next_hop_is_peer = true"), lists


def dropped(rules):
    """The prefixes that the example drops, with their range operators, and the AS numbers that no AS_PATH may have."""
    prefixes = []
    for prefix, rest in re.findall(r'\{ prefix = "([^"]+)"([^}]*), action = "drop" \}', rules):
        own, least, most = (re.search(it, text) for it, text in ((r"/(\d+)", prefix), (r"min = (\d+)", rest), (r"max = (\d+)", rest)))
        prefixes.append(f"{prefix}^{least[1] if least else own[1]}-{most[1] if most else own[1]}")
    return prefixes, re.findall(r"path_has = (\d+)", rules)


def with_example(room, members, conf, kind, listen):
    """The configuration of rsload with the rules of the example."""
    made = registered.exchange(room, registered.register(room, members), listen)
    rules, lists = example_rules()
    bogons, numbers = dropped(rules)
    if kind != "ours":
        conf = registered.bird(room, members, conf, bogons)
        return conf.replace(" if net ~ BOGONS then reject;", " if net ~ BOGONS then reject;" + "".join(f"\n if bgp_path ~ [= * {it} * =] then reject;" for it in numbers))
    head, _, clients = made.partition("[[client]]")
    own = re.findall(r'prefix_in = "([^"]*)", origin_in', clients)
    parts = (it[: it.index("import = ")] + lists.replace('"alpha"', f'"{name}"') for it, name in zip(clients.split("[[client]]"), own))
    return head[: head.index("[[rules]]")] + rules + "".join(f"\n[[client]]{it}" for it in parts)


def communities_of(place):
    """The communities and the large ones that the rules of a member ask for; no route of the load has one of them."""
    half = RULES_A_MEMBER // 2
    return [(62_000 + place, it) for it in range(half)], [(4_210_000_000 + place, it, 0) for it in range(half)]


def with_communities(room, members, conf, kind, listen):
    """The configuration of rsload with many rules of communities."""
    texts = lambda it: ":".join(map(str, it))
    if kind == "ours":
        head, *clients = conf.split("\n[[client]]")
        for place, client in enumerate(clients):
            short, large = communities_of(place)
            rules = [f'{{ community = "{texts(it)}", action = "drop" }}' for it in short]
            rules += [f'{{ large_community = "{texts(it)}", action = "drop" }}' for it in large]
            clients[place] = client.rstrip() + "\nexport = [\n" + "".join(f"    {it},\n" for it in rules) + "]\n"
        return "\n[[client]]".join([head, *clients])
    filters = []
    for place, _ in enumerate(members):
        short, large = communities_of(place)
        conditions = [f"{it} ~ bgp_community" for it in short] + [f"{it} ~ bgp_large_community" for it in large]
        filters.append(f"filter out_{place} {{\n " + "\n ".join(f"if {it} then reject;" for it in conditions) + "\n accept;\n}\n")
    return registered.with_filters(conf, "\n".join(filters), imports=False)


KINDS = {"exchange": registered.with_rules, "example": with_example, "communities": with_communities}
