#!/usr/bin/env python3
"""Looks through the window of a built rs_served with programs that others wrote, and says what each saw.

lookers.py PROGRAM [--pictures FOLDER]

Fifty members are up, of which the first announces 10,000 routes and the others 20 each; and one more, of whose 30 routes its import list
drops eight, and five lose against the first's. Prometheus scrapes /metrics each second:
its own `up` must be 1, without an error, and its figures right; promtool must find nothing wrong with the text. A reader written
from the fields that Alice-LG's source for birdwatcher asks for must find each field of birdwatcher's pages, with the right value.
curl must be given each page, and Chromium show the pages for people, one of 10,000 routes too, light and dark; with --pictures it leaves what it showed
in FOLDER. What is not installed is skipped with a word, and a skip is not counted as passed. All waiting is bounded.
"""
import argparse
import contextlib
import json
import pathlib
import shutil
import subprocess
import sys
import tempfile
import threading
import time
import urllib.parse
import urllib.request

from peers.members import Member, differs, free_ports, routes, serving, speak
from peers.speaker import attributes
from results import end, tell

SECONDS = 240
MEMBERS = 50
MANY, FEW = 10_000, 20
# Who comes last: its import list drops its first routes, and its last ones, for the first's prefixes, have longer paths.
LATE = "late"
LATE_ROUTES = routes(99, 25) + routes(20, 5)
DROPPED, LOSING = 8, 5
RULES = {LATE: 'import = [{ prefix = "99.0.0.0/21", max = 24, action = "drop" }]\n'}
SHOWN = {"m0": MANY, **{f"m{k}": FEW for k in range(1, MEMBERS)}, LATE: len(LATE_ROUTES)}
# How many prefixes anybody announces; of these each is sent all but those that are dropped and those that nobody else has.
PREFIXES = sum(SHOWN.values()) - LOSING
SENT = {name: PREFIXES - DROPPED - count for name, count in SHOWN.items()} | {"m0": PREFIXES - DROPPED - MANY + LOSING}
SENT[LATE] = PREFIXES - (len(LATE_ROUTES) - LOSING)
# What is imported, filtered, exported and preferred of each.
COUNTS = {name: [count, 0, SENT[name], count] for name, count in SHOWN.items()}
COUNTS[LATE] = [len(LATE_ROUTES) - DROPPED, DROPPED, SENT[LATE], len(LATE_ROUTES) - DROPPED - LOSING]
# What Chromium is told, so that a page asks for its light or dark colours.
COLOURS = {"light": "preferredColorScheme=1", "dark": "preferredColorScheme=0"}


def told(port, target):
    """The body of a page, as text."""
    with urllib.request.urlopen(f"http://127.0.0.1:{port}{target}", timeout=60) as answer:
        return answer.read().decode()


# ---- Prometheus


def asked(port, query):
    """What Prometheus answers to a query: the value of each series, by its label `member`."""
    answer = json.loads(told(port, "/api/v1/query?" + urllib.parse.urlencode({"query": query})))
    return {it["metric"].get("member", ""): float(it["value"][1]) for it in answer["data"]["result"]}


def scraped(port, own, until):
    """What is wrong with what Prometheus has scraped."""
    while time.monotonic() < until:
        with contextlib.suppress(OSError, ValueError):
            if asked(own, "up") and asked(own, "rs_member_received_prefixes"):
                break
        time.sleep(0.5)
    else:
        return "it has scraped nothing"
    target = json.loads(told(own, "/api/v1/targets"))["data"]["activeTargets"][0]
    if target["health"] != "up" or target["lastError"]:
        return f"it says {target['health']}, {target['lastError']}"
    wanted = {
        "up": {"": 1},
        "rs_members": {"": len(SHOWN)},
        "rs_members_established": {"": len(SHOWN)},
        "sum(rs_member_up)": {"": len(SHOWN)},
        "rs_member_received_prefixes": SHOWN,
        "rs_member_refused_prefixes": {name: counts[1] for name, counts in COUNTS.items()},
        "rs_member_sent_prefixes": SENT,
        "sum(rs_member_faulted_updates_total)": {"": 0},
        "rs_member_received_updates_total": {name: -(-count // 10) for name, count in SHOWN.items()},
        "sum(rs_member_sent_bytes_total) > bool 0": {"": 1},
        "rs_turn_duration_seconds_count == bool ignoring(le) rs_turn_duration_seconds_bucket{le='+Inf'}": {"": 1},
        "rs_prefix_rows": {"": PREFIXES},
    }
    for query, values in wanted.items():
        if (said := asked(own, query)) != values:
            return f"{query} is {said}"
    lint = subprocess.run(["promtool", "check", "metrics"], input=told(port, "/metrics"), capture_output=True, text=True)
    return f"promtool says {lint.stdout}{lint.stderr}" if lint.returncode or lint.stderr else None


def prometheus(port, room):
    """Prometheus scrapes the metrics."""
    (own,) = free_ports(1)
    (room / "prometheus.yml").write_text(
        f"global: {{scrape_interval: 1s}}\nscrape_configs: [{{job_name: rs, static_configs: [{{targets: ['127.0.0.1:{port}']}}]}}]\n"
    )
    words = ["prometheus", f"--config.file={room}/prometheus.yml", f"--storage.tsdb.path={room}/data", f"--web.listen-address=127.0.0.1:{own}"]
    with open(room / "prometheus.log", "w") as log, subprocess.Popen(words, stdout=log, stderr=log) as process:
        try:
            return scraped(port, own, time.monotonic() + 60)
        finally:
            process.terminate()


# ---- a reader of birdwatcher's pages, as Alice-LG has one: a field that is not as it must be is an error here


def number(value):
    """A number, or a text that spells one."""
    return int(value) if isinstance(value, str) else {int: value}[type(value)]


def text(value):
    return {str: value}[type(value)]


def moment(value):
    """A time as Alice-LG is set to read it."""
    return time.strptime(text(value), "%Y-%m-%dT%H:%M:%SZ")


def read_api(page):
    """What each answer begins with."""
    text(page["api"]["Version"])
    moment(page["api"]["cache_status"]["cached_at"]["date"])
    moment(page["ttl"])
    return page["api"]["result_from_cache"]


def read_protocol(it):
    """A neighbour: its place, and how many routes."""
    counts = it["routes"]
    uptime = number(it["uptime"])
    moment(it["state_changed"])
    return {
        "id": text(it["protocol"]),
        "state": (text(it["state"]), text(it["bgp_state"]), text(it["last_error"]), uptime >= 0),
        "neighbour": (text(it["description"]), text(it["neighbor_address"]), number(it["neighbor_as"])),
        "routes": [number(counts[name]) for name in ("imported", "filtered", "exported", "preferred")],
    }


def read_route(it):
    """A route, with what Alice-LG shows of it."""
    bgp = it["bgp"]
    moment(it["age"])
    return {
        "network": text(it["network"]),
        "from": (text(it["from_protocol"]), text(it["learnt_from"]), text(it["gateway"])),
        "shown": (number(it["metric"]), {bool: it["primary"]}[type(it["primary"])], [text(word) for word in it["type"]]),
        "bgp": (text(bgp["origin"]), [number(part) for part in bgp["as_path"]], text(bgp["next_hop"]), number(bgp["med"]), number(bgp["local_pref"])),
        "communities": [[[number(part) for part in one] for one in bgp[kind]] for kind in ("communities", "large_communities")],
        "extended": [[text(part) for part in one] for one in bgp["ext_communities"]],
    }


def alice(port, room):
    """Birdwatcher's pages, read as Alice-LG reads them."""
    status = json.loads(told(port, "/status"))
    if read_api(status) is not False or text(status["status"]["router_id"]) != "192.0.2.1":
        return f"/status is {status}"
    for name in ("server_time", "last_reboot", "last_reconfig"):
        moment(status["status"][name])
    if (text(status["status"]["message"]), text(status["status"]["version"])[:9]) != ("up and running", "Tivrazel "):
        return f"/status is {status}"
    page = json.loads(told(port, "/protocols/bgp"))
    read_api(page)
    if list(page["protocols"]) != list(SHOWN):
        return f"/protocols/bgp lists {list(page['protocols'])}"
    for at, (name, it) in enumerate(page["protocols"].items()):
        wanted = {
            "id": name,
            "state": ("up", "Established", "", True),
            "neighbour": (name, f"127.0.1.{at + 1}", 64512 + at),
            "routes": COUNTS[name],
        }
        alone = json.loads(told(port, f"/protocols/bgp/{name}"))["protocols"]
        if read_protocol(it) != wanted or [read_protocol(one) for one in alone.values()] != [wanted]:
            return f"/protocols/bgp says {it}"
    for name, prefixes in (("m0", [f"20.{at >> 8}.{at & 255}.0/24" for at in range(MANY)]), ("m1", [f"21.0.{at}.0/24" for at in range(FEW)])):
        page = json.loads(told(port, f"/routes/protocol/{name}"))
        read_api(page)
        read = [read_route(it) for it in page["routes"]]
        at = int(name[1:])
        if [it["network"] for it in read] != prefixes:
            return f"/routes/protocol/{name} lists {len(read)} routes"
        for it in read:
            if it["from"] != (name, f"127.0.1.{at + 1}", f"192.0.2.{11 + at}") or it["shown"] != (100, False, ["BGP", "unicast", "univ"]):
                return f"/routes/protocol/{name} lists {it}"
            if it["bgp"][0] != "IGP" or it["bgp"][1][0] != 64512 + at or it["bgp"][2] != f"192.0.2.{11 + at}":
                return f"/routes/protocol/{name} lists {it}"
    for table, name, count in (("filtered", "m0", 0), ("noexport", "m0", 0), ("filtered", LATE, DROPPED), ("protocol", LATE, COUNTS[LATE][0])):
        page = json.loads(told(port, f"/routes/{table}/{name}"))
        if read_api(page) is not False or len([read_route(it) for it in page["routes"]]) != count:
            return f"/routes/{table}/{name} is {page}"
    return None


# ---- curl and Chromium

PAGES = (
    *("/status", "/protocols/bgp", "/routes/protocol/m0", "/routes/filtered/m0", "/routes/noexport/m0", "/routes/count/protocol/m0"),
    *("/routes/prefix?prefix=20.0.0.0/24", "/members/m0/received", "/members/m1/sent?count=10", "/why?to=m1&prefix=20.0.0.0/24"),
    *("/", "/members/m0", "/members/m0/received.html", "/members/m1/sent.html?count=10", "/search?prefix=20.0.0.0/24", "/metrics"),
)


def curl(port, room):
    """curl is given each page, by HTTP/1.1 and HTTP/1.0, and its head alone."""
    for target in PAGES:
        bodies = []
        for words in ((), ("-0",)):
            ran = subprocess.run(["curl", "-sSf", "-m", "60", *words, f"http://127.0.0.1:{port}{target}"], capture_output=True, text=True)
            if ran.returncode or not ran.stdout:
                return f"{target}: {ran.stderr}"
            bodies.append(ran.stdout)
        if bodies[0].startswith("{"):
            json.loads(bodies[0])
        elif not bodies[0].startswith(("<!DOCTYPE html>", "# HELP ")):
            return f"{target} begins with {bodies[0][:40]}"
        ran = subprocess.run(["curl", "-sSfI", "-m", "20", f"http://127.0.0.1:{port}{target}"], capture_output=True, text=True)
        if ran.returncode or not ran.stdout.startswith("HTTP/1.1 200 "):
            return f"the head of {target}: {ran.stdout}{ran.stderr}"
    return None


def shown(port, target, room, colour, picture):
    """The page as Chromium has it, and its picture."""
    words = ["chromium", "--headless=new", "--no-sandbox", "--disable-gpu", "--hide-scrollbars", "--no-first-run", f"--user-data-dir={room}/chromium"]
    words += ["--window-size=1100,900", f"--blink-settings={COLOURS[colour]}", "--log-level=3"]
    url = f"http://127.0.0.1:{port}{target}"
    if picture:
        subprocess.run([*words, f"--screenshot={picture}", url], capture_output=True, timeout=90, check=True)
    return subprocess.run([*words, "--dump-dom", url], capture_output=True, text=True, timeout=90, check=True).stdout


def chromium(port, room, pictures=None):
    """Chromium shows the members, one of them, its routes, and who announces a prefix."""
    sights = (
        ("members", "/", len(SHOWN), len(SHOWN)),
        ("member", "/members/m0", 1, 1),
        ("routes", "/members/m0/received.html", MANY, 0),
        ("search", "/search?prefix=20.0.0.0/24", 2, 0),
    )
    for colour in COLOURS:
        for name, target, rows, up in sights:
            page = shown(port, target, room, colour, pictures and pictures / f"{name}-{colour}.png")
            if page.count("<tr>") != rows + 1 or page.count(">up<") != up:
                return f"{target} has {page.count('<tr>')} rows"
    return None


def looks(pictures):
    """Who looks, and how."""
    yield "Prometheus at the window", prometheus, ("prometheus", "promtool")
    yield "birdwatcher's pages, read as Alice-LG reads them", alice, ()
    yield "curl at the window", curl, ("curl",)
    yield "Chromium at the window", lambda port, room: chromium(port, room, pictures), ("chromium",)


def look(port, pictures):
    """Lets all look; yields each name and what is wrong, or None."""
    for name, work, wanted in looks(pictures):
        if missing := [it for it in wanted if not shutil.which(it)]:
            print(f"{name}: skipped, {missing[0]} is not installed")
            continue
        with tempfile.TemporaryDirectory(prefix="looker-") as room:
            try:
                wrong = work(port, pathlib.Path(room))
            except (OSError, KeyError, TypeError, ValueError, subprocess.SubprocessError) as fault:
                wrong = f"{type(fault).__name__}: {fault}"
        yield name, wrong


class Longer(Member):
    """A member whose paths have a second AS number."""

    def attributes(self, group):
        return attributes([self.number, 64999], self.address, group)


def play(program, pictures):
    """The server with its members; yields what each who looks saw."""
    until = time.monotonic() + SECONDS
    listen, port = free_ports(2)
    clients = [(name, 64512 + k, listen, f"127.0.1.{k + 1}") for k, name in enumerate(SHOWN)]
    with serving(program, clients, len(SHOWN), "--window", f"127.0.0.1:{port}", rules=RULES) as server:
        server.stdout.readline()
        members = [
            Member(name, number, f"192.0.2.{11 + k}", ("127.0.0.1", listen), routes(20 + k, SHOWN[name]), source)
            for k, (name, number, _, source) in enumerate(clients[:MEMBERS])
        ]
        if wrong := differs(server, members, members, until):
            yield "fifty members", wrong
            return
        late = Longer(LATE, 64512 + MEMBERS, f"192.0.2.{11 + MEMBERS}", ("127.0.0.1", listen), LATE_ROUTES, f"127.0.1.{MEMBERS + 1}")
        members.append(late)
        if wrong := speak(members, until, lambda: len(late.told) == SENT[LATE]):
            yield "one more member", wrong
            return
        over, said = threading.Event(), []
        speaking = threading.Thread(target=lambda: said.append(speak(members, until + SECONDS, over.is_set)))
        speaking.start()
        try:
            yield from look(port, pictures)
        finally:
            over.set()
            speaking.join()
        yield "fifty members meanwhile", said[0] if said else "they were not heard of"


def main():
    parser = argparse.ArgumentParser(description=__doc__, formatter_class=argparse.RawDescriptionHelpFormatter)
    parser.add_argument("program", nargs="+")
    parser.add_argument("--pictures", type=pathlib.Path)
    options = parser.parse_args()
    if options.pictures:
        options.pictures.mkdir(parents=True, exist_ok=True)
    end(*tell(play(options.program, options.pictures and options.pictures.resolve())))


if __name__ == "__main__":
    sys.exit(main())
