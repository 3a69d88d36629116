"""Members of an exchange with what they registered, made up for the clients of rsload, and the rules that come of it: ours, as
tools/exchange.py writes them, and the same in BIRD's language.

A member's list of prefixes has each that it announces, as itself alone or with a range of lengths up to 24, each /20 around
them with a range of what is within, and as many others as a third; its list of AS numbers has the origins of its routes, and half as
many others. All comes of a fixed seed. So each route is judged by the bogons, by its NEXT_HOP, by both lists and by the action
communities, and passes: who is to hold what is the same as without rules. NEXT_HOPs of the load are no addresses of its
clients, which are on loopback, where BIRD takes no NEXT_HOP: so the rule that asks for it asks the other way round, in both languages.
"""
import ipaddress
import json
import pathlib
import random
import re
import subprocess
import sys

EXCHANGE = pathlib.Path(__file__).resolve().parent.parent / "tools" / "exchange.py"
SEED = 1
SERVER_AS = 64500
GREATEST_SHORT = 65_535


def registered_prefixes(draw, announced):
    """The entries of a member's list as bgpq4 writes them."""
    entries = []
    for text in announced:
        own = int(text.partition("/")[2])
        if draw.random() < 0.3:
            entries.append({"prefix": text, "exact": False, "greater-equal": own, "less-equal": 24})
        else:
            entries.append({"prefix": text, "exact": True})
    around = {str(ipaddress.ip_network(it).supernet(new_prefix=20)) for it in announced}
    entries += [{"prefix": it, "exact": False, "greater-equal": 21, "less-equal": 24} for it in sorted(around)]
    others = (draw.randrange(0x60000000, 0x70000000) & 0xFFFFFF00 for _ in range(len(announced) // 3))
    return entries + [{"prefix": f"{ipaddress.ip_address(it)}/24", "exact": True} for it in others]


def registered_ases(draw, origins):
    """A member's AS numbers."""
    return sorted({*origins, *(draw.randrange(1, 64_000) for _ in range(len(origins) // 2))})


def register(room, members, only_announced=False):
    """Writes the member list and what members registered, or only what they announce; answers the list's path."""
    draw, folder = random.Random(SEED), room / "registered"
    folder.mkdir()
    connections = []
    for at, it in enumerate(members):
        macro = f"AS-MEMBER-{at}"
        ipv4 = {"address": it["address"], "as_macro": macro, "max_prefix": 2 * len(it["prefixes"]) + 1_000}
        connections.append({"asnum": it["as"], "connection_list": [{"vlan_list": [{"ipv4": ipv4}]}]})
        if only_announced:
            prefixes, ases = [{"prefix": one, "exact": True} for one in it["prefixes"]], it["origins"]
        else:
            prefixes, ases = registered_prefixes(draw, it["prefixes"]), registered_ases(draw, it["origins"])
        (folder / f"{macro}.prefixes.json").write_text(json.dumps({"prefixes": prefixes}))
        (folder / f"{macro}.ases.json").write_text(json.dumps({"ases": ases}))
    path = room / "members.json"
    path.write_text(json.dumps({"member_list": connections}))
    return path


def exchange(room, path, listen):
    """Our configuration by these lists."""
    words = [path, "--as", str(SERVER_AS), "--identifier", "10.255.255.1", "--listen", listen, "--registered", room / "registered"]
    made = subprocess.run([sys.executable, EXCHANGE, *words], capture_output=True, text=True, check=True).stdout
    return made.replace("next_hop_is_peer = false", "next_hop_is_peer = true")


def entry(it):
    """An entry of bgpq4's in BIRD's language."""
    return it["prefix"] if it["exact"] else f'{it["prefix"]}{{{it["greater-equal"]},{it["less-equal"]}}}'


def operator(text):
    """A prefix with a range operator (RFC 2622, 2) of ours in BIRD's language."""
    prefix, _, lengths = text.partition("^")
    return f"{prefix}{{{lengths.replace('-', ',')}}}" if lengths[:1].isdigit() else f"{prefix}{lengths}"


def actions(number):
    """The rules by which members say to whom their routes go, for the member of this AS number."""
    strip = f"bgp_community.delete([(0, *), ({SERVER_AS}, *)]); bgp_large_community.delete([({SERVER_AS}, *, *)]); accept;"
    is_short = number <= GREATEST_SHORT
    lines = [f"if ({SERVER_AS}, {number}) ~ bgp_community then {{ {strip} }}"] * is_short
    lines += [f"if ({SERVER_AS}, 1, {number}) ~ bgp_large_community then {{ {strip} }}"]
    lines += [f"if (0, {number}) ~ bgp_community then reject;"] * is_short
    lines += [f"if ({SERVER_AS}, 0, {number}) ~ bgp_large_community then reject;", f"if (0, {SERVER_AS}) ~ bgp_community then reject;"]
    return [*lines, f"if ({SERVER_AS}, 0, 0) ~ bgp_large_community then reject;", strip]


def bird_filters(room, members, bogons, before):
    """The lists, and for each member a filter for what it sends, which ends with these words, and one for what it is sent."""
    yield f"define BOGONS = [ {', '.join(map(operator, bogons))} ];"
    for at, it in enumerate(members):
        folder = room / "registered"
        prefixes = json.loads((folder / f"AS-MEMBER-{at}.prefixes.json").read_text())["prefixes"]
        ases = json.loads((folder / f"AS-MEMBER-{at}.ases.json").read_text())["ases"]
        own = f"net ~ [ {', '.join(map(entry, prefixes))} ] && bgp_path.last ~ [ {', '.join(map(str, ases))} ]" if prefixes else "false"
        yield f"filter in_{at} {{\n if net ~ BOGONS then reject;\n if bgp_next_hop = from then reject;\n if {own} then {{ {before(at)} accept; }}\n reject;\n}}"
        yield f"filter out_{at} {{\n " + "\n ".join(actions(it["as"])) + "\n}"


def with_filters(conf, filters, imports=True):
    """A configuration of BIRD that rsload wrote, of one table or of a table for each client, with these filters: `out_N` for what
    client N is sent, and where wanted `in_N` for what it sends."""
    if "member_no" in conf:
        own = r"import filter in_\2;" if imports else r"\1"
        conf = re.sub(r"(import filter \{ member_no = (\d+);[^}]*\};) export all;", own + r" export filter out_\2;", conf)
    else:
        own = r"import filter in_\2; " if imports else ""
        conf = re.sub(r"(protocol bgp c(\d+) from t_rs \{[^}]*;) \}", r"\1 ipv4 { " + own + r"export filter out_\2; }; }", conf)
    head, mark, rest = conf.partition("template bgp")
    return f"{head}{filters}\n{mark}{rest}"


def bird(room, members, conf, bogons):
    """A configuration of BIRD that rsload wrote, with the filters of an exchange."""
    before = lambda at: f"member_no = {at}; preference = 50;" if "member_no" in conf else ""
    return with_filters(conf, "\n".join(bird_filters(room, members, bogons, before)))


def with_rules(room, members, conf, kind, listen):
    """A configuration that rsload wrote, with the rules of an exchange."""
    path = register(room, members)
    ours = exchange(room, path, listen)
    if kind == "ours":
        return ours
    bogons = re.findall(r'"([^"]*)"', ours.partition('name = "bogons"')[2].partition("]")[0])
    return bird(room, members, conf, bogons)
