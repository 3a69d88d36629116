"""Looks through the window of a built rs_served while two members exchange routes, and says what went otherwise than it must.

play.py window PROGRAM [--long]

Pages: /status by GET, by HEAD, by HTTP/1.0, four times on one connection, and a hundred times at once without waiting; then each
page, once both members are up and hold 2,000 routes: its fields, its routes once each and in order, in pieces of at most 32,768
octets and by its own count, in HTML by its links, what becomes of a prefix, and names that there are not.
Counts: of two members who announce the same prefixes, of which the import list of one drops some, what is imported, filtered and preferred.
Refusals: what is no request, another method, a body, a Host that is no name of this machine, a long target, a long head; the
whole answer must come before the connection ends, though the server has not read all that was sent.
Visitors: 16 who say nothing hold all places; a seventeenth waits, and is answered once one has gone.
A descriptor: of a server that may open two connections more a visitor and a member have one each; a second member must come up,
and the visitor lose its connection.
With --long: a visitor who says nothing, one who says an octet each second, and one who reads nothing must lose their
connections after 10 seconds and before 13.

All the while two members announce 2,000 routes each, and must be told the other's, once and octet for octet. No answer may have
Access-Control-Allow-Origin. All waiting is bounded.
"""
import contextlib
import http.client
import json
import os
import pathlib
import resource
import socket
import threading
import time

from peers.members import Member, differs, each_played, ends, free_ports, routes, serving, speak
from peers.speaker import attributes, update

SECONDS = 60
PLACES = 16
# How many routes each member announces.
ROUTES = 2_000
NO_PAGES = ("/members/gamma", "/members/alpha/", "/members/%3Cb%3E", "/routes/protocol/", "/why?to=beta", "/members/beta/sent?count=10001")


def visitor(port):
    """A connection to the window."""
    return socket.create_connection(("127.0.0.1", port), timeout=20)


def answer(port, said):
    """All that is answered to these octets until the connection ends."""
    with visitor(port) as connection:
        connection.sendall(said)
        got = b""
        with contextlib.suppress(ConnectionResetError):
            while piece := connection.recv(65536):
                got += piece
        return got


def get(target, *fields, method="GET", version="1.1", host="localhost"):
    """A request."""
    lines = [f"{method} {target} HTTP/{version}", f"Host: {host}", *fields, "", ""]
    return "\r\n".join(lines).encode()


def is_status(body):
    """Whether this is the page /status."""
    return b'"router_id":"192.0.2.1"' in body


def pages(port):
    """What is wrong with pages that are there."""
    connection = http.client.HTTPConnection("127.0.0.1", port, timeout=20)
    for method in ("GET", "HEAD", "GET", "GET"):
        connection.request(method, "/status")
        response = connection.getresponse()
        body = response.read()
        if response.status != 200 or response.getheader("Transfer-Encoding") != "chunked":
            return f"{method} /status is answered {response.status}"
        if is_status(body) != (method == "GET"):
            return f"{method} /status has the body {body!r}"
        if response.getheader("Access-Control-Allow-Origin") or response.getheader("Cache-Control") != "no-store":
            return f"/status is answered with {response.getheaders()}"
    connection.close()
    old = answer(port, get("/status", version="1.0"))
    if not old.startswith(b"HTTP/1.1 200 ") or b"chunked" in old or not is_status(old):
        return f"HTTP/1.0 is answered {old!r}"
    many = answer(port, get("/status") * 99 + get("/status", "Connection: close"))
    if many.count(b"HTTP/1.1 200 ") != 100 or not many.endswith(b"\r\n0\r\n\r\n"):
        return f"of 100 requests at once {many.count(b'HTTP/1.1 200 ')} are answered"
    return None


def told(port, target):
    """The body of a page, or None where there is none."""
    connection = http.client.HTTPConnection("127.0.0.1", port, timeout=20)
    connection.request("GET", target)
    response = connection.getresponse()
    body = response.read().decode()
    connection.close()
    return body if response.status == 200 else None


def chunks(port, target):
    """How long the chunks of a page are."""
    _, _, rest = answer(port, get(target, "Connection: close")).partition(b"\r\n\r\n")
    sizes = []
    while rest:
        line, _, rest = rest.partition(b"\r\n")
        sizes.append(int(line, 16))
        rest = rest[sizes[-1] + 2 :]
    return sizes


def networks(first):
    """The prefixes that a member announces, in order."""
    return [f"{first}.{at >> 8}.{at & 255}.0/24" for at in range(ROUTES)]


def protocols(port):
    """What is wrong with /protocols/bgp, once both members hold all routes and are due the other's."""
    until = time.monotonic() + 30
    while time.monotonic() < until:
        all_of = json.loads(told(port, "/protocols/bgp"))["protocols"]
        if all(it["routes"] == {"imported": ROUTES, "filtered": 0, "exported": ROUTES, "preferred": ROUTES} for it in all_of.values()):
            break
        time.sleep(0.2)
    else:
        return f"/protocols/bgp says {all_of}"
    for name, number in (("alpha", 64496), ("beta", 64497)):
        said = all_of.pop(name)
        fixed = {"protocol": name, "state": "up", "description": name, "neighbor_address": "127.0.0.1", "neighbor_as": number}
        fixed |= {"bgp_state": "Established", "last_error": ""}
        if any(said[key] != value for key, value in fixed.items()) or not said["state_changed"].endswith("Z"):
            return f"/protocols/bgp says {said}"
        if not 0 <= said["uptime"] < SECONDS:
            return f"/protocols/bgp says that {name} is up for {said['uptime']} seconds"
    return f"/protocols/bgp has more members: {all_of}" if all_of else None


def birdwatcher(port):
    """What is wrong with birdwatcher's pages, but for /protocols/bgp."""
    status = json.loads(told(port, "/status"))
    if set(status) != {"api", "ttl", "status"} or status["api"]["result_from_cache"] is not False:
        return f"/status says {status}"
    if set(status["status"]) != {"router_id", "server_time", "last_reboot", "last_reconfig", "message", "version"}:
        return f"/status says {status}"
    routes = json.loads(told(port, "/routes/protocol/alpha"))["routes"]
    if [it["network"] for it in routes] != networks(10):
        return f"/routes/protocol/alpha lists {len(routes)} routes, and not just alpha's in order"
    for it in routes:
        if (it["from_protocol"], it["gateway"], it["learnt_from"]) != ("alpha", "192.0.2.11", "127.0.0.1"):
            return f"/routes/protocol/alpha lists {it}"
        if it["bgp"]["as_path"][0] != "64496" or it["bgp"]["next_hop"] != "192.0.2.11" or it["bgp"]["origin"] != "IGP":
            return f"/routes/protocol/alpha lists {it}"
        if it["type"] != ["BGP", "unicast", "univ"] or not {"age", "metric", "primary"} < set(it):
            return f"/routes/protocol/alpha lists {it}"
    sizes = chunks(port, "/routes/protocol/alpha")
    if len(sizes) < 4 or max(sizes) > 32_768 or sizes[-1] != 0:
        return f"/routes/protocol/alpha comes in chunks of {sizes} octets"
    if json.loads(told(port, "/routes/count/protocol/beta"))["routes"] != ROUTES:
        return "/routes/count/protocol/beta says another number"
    at_prefix = json.loads(told(port, "/routes/prefix?prefix=11.0.9.0%2F24"))["routes"]
    if [(it["network"], it["from_protocol"]) for it in at_prefix] != [("11.0.9.0/24", "beta")]:
        return f"/routes/prefix says {at_prefix}"
    if json.loads(told(port, "/routes/prefix?prefix=11.0.9.0/25"))["routes"]:
        return "/routes/prefix says something of a prefix that nobody has"
    return None


def tables(port):
    """What is wrong with our own pages of routes."""
    for name, table, first in (("alpha", "received", 10), ("beta", "sent", 10), ("alpha", "sent", 11)):
        listed, at = [], "0.0.0.0/0"
        for _ in range(10):
            page = json.loads(told(port, f"/members/{name}/{table}?from={at}&count=700"))
            if (page["member"], page["table"]) != (name, table) or len(page["routes"]) > 700:
                return f"/members/{name}/{table} is of {page['member']}, {page['table']}, with {len(page['routes'])} routes"
            listed += [it["network"] for it in page["routes"]]
            at = page["next"]
            if at is None:
                break
        if listed != networks(first):
            return f"/members/{name}/{table} lists {len(listed)} routes in all, and not just those in order"
    return None


def reasons(port):
    """What is wrong with /why."""
    for to, prefix, outcome in (("beta", "10.0.3.0/24", "chosen"), ("alpha", "10.0.3.0/24", "own")):
        page = json.loads(told(port, f"/why?to={to}&prefix={prefix}"))
        said = [(it["from"], it["as"], it["outcome"]) for it in page["candidates"]]
        if (page["to"], page["prefix"], said) != (to, prefix, [("alpha", 64496, outcome)]):
            return f"/why says {page}"
    return None


def counted(metrics):
    """What is wrong with these lines of metrics, where each member has announced its routes by ten in an UPDATE and was told the other's."""
    values = dict(line.rsplit(" ", 1) for line in metrics if not line.startswith("# "))
    wanted = {"rs_members": 2, "rs_members_established": 2, "rs_prefix_rows": 2 * ROUTES, "rs_stranger_connections_total": 0, "rs_memory_refused_total": 0}
    announced = update(field=attributes([64496], "192.0.2.11", 0), nlri=b"".join(b"\x18" + it for it in routes(10, 10)))
    for name in ("alpha", "beta"):
        wanted |= {f'rs_member_up{{member="{name}"}}': 1, f'rs_member_received_updates_total{{member="{name}"}}': ROUTES // 10}
    for name, value in wanted.items():
        if values.get(name) != str(value):
            return f"/metrics has {name} {values.get(name)}, not {value}"
    at_least = {
        'rs_member_sent_updates_total{member="beta"}': ROUTES // 10,
        'rs_member_received_bytes_total{member="alpha"}': ROUTES // 10 * len(announced),
        'rs_member_sent_bytes_total{member="beta"}': ROUTES // 10 * len(announced),
        "rs_turn_duration_seconds_count": 1,
    }
    for name, value in at_least.items():
        if int(values.get(name, 0)) < value:
            return f"/metrics has {name} {values.get(name)}, less than {value}"
    buckets = [int(value) for name, value in values.items() if name.startswith("rs_turn_duration_seconds_bucket")]
    if len(buckets) != 12 or buckets != sorted(buckets) or buckets[-1] != int(values["rs_turn_duration_seconds_count"]):
        return f"/metrics has the buckets {buckets}"
    if len(values) != sum(1 for line in metrics if not line.startswith("# ")):
        return "/metrics has a series twice"
    for name, value in values.items():
        if not (value.replace(".", "", 1) if name.endswith("_sum") else value).isdecimal():
            return f"/metrics has {name} {value}"
    return None


def texts(port):
    """What is wrong with the pages that are no JSON."""
    if wrong := counted(told(port, "/metrics").splitlines()):
        return wrong
    home = told(port, "/")
    for part in ("<!DOCTYPE html>", '<a href="/members/alpha">', '<a href="/members/beta">', "color-scheme:light dark"):
        if part not in home:
            return f"/ lacks {part!r}"
    if "<script" in home or '<a href="/members/beta/sent.html">' not in told(port, "/members/beta"):
        return "a page for people is not as it should be"
    for target in NO_PAGES:
        if told(port, target) is not None:
            return f"{target} is a page"
    return None


def shown(port):
    """What is wrong with the pages of routes for people, each followed by its link to the next, and with the search."""
    for name, table, first, number in (("alpha", "received", 10, 64496), ("beta", "sent", 10, 64496), ("alpha", "sent", 11, 64497)):
        target, listed = f"/members/{name}/{table}.html?count=700", []
        for _ in range(10):
            page = told(port, target)
            rows = [it.split("<td>") for it in page.split("\n") if it.startswith("<tr><td>")]
            if f"<h1>{name}: routes {table}</h1>" not in page or "<script" in page or len(rows) > 700:
                return f"{target} begins with {page[:1000]}"
            for at, (_, network, next_hop, path, *rest) in enumerate(rows, len(listed)):
                listed.append(network)
                # Ten routes have one MED.
                if next_hop != f"192.0.2.{first + 1}" or path != f"{number}<td class=number>{at // 10}" or rest != ["</tr>"]:
                    return f"{target} has the row {network}, {next_hop}, {path}, {rest}"
            link = page.partition('<p><a href="/members/' + f"{name}/{table}.html?")[2].partition('">More</a></p>')[0]
            if not link:
                break
            target = f"/members/{name}/{table}.html?" + link.replace("&amp;", "&")
        if listed != networks(first):
            return f"{target} is the last, and {len(listed)} routes in all are listed, and not just those in order"
    found = told(port, "/search?prefix=11.0.9.0%2F24")
    for part in ("<h1>11.0.9.0/24</h1>", '<a href="/members/beta">', '<a href="/why?to=beta&amp;prefix=11.0.9.0/24">'):
        if part not in found or "alpha" in found:
            return f"/search says {found}"
    if "<tr><td>" in told(port, "/search?prefix=11.0.9.0/25") or told(port, "/search?prefix=11.0.9.0/33") is not None:
        return "/search says something of a prefix that nobody has"
    return None


def sights(port):
    """What is wrong with each page while two members are up."""
    return protocols(port) or birdwatcher(port) or tables(port) or shown(port) or reasons(port) or texts(port)


def refusals(port):
    """What is wrong with the answers to what is refused."""
    cases = (
        (400, b"\x16\x03\x01\x02\x00\x01\x00\x01\xfc" + bytes(3000)),
        (400, b"GET /status HTTP/1.1\r\n\r\n"),
        (400, get("/status", "Content-Length: 20000") + bytes(20000)),
        (403, get("/status", host="example.org")),
        (404, get("/none", "Connection: close")),
        (405, get("/status", method="POST")),
        (405, get("/status", method="OPTIONS")),
        (414, get("/" + 30000 * "x")),
        (431, get("/status", *["X: " + 900 * "x"] * 30)),
    )
    for status, said in cases:
        got = answer(port, said)
        head, _, body = got.partition(b"\r\n\r\n")
        length = [line for line in head.split(b"\r\n") if line.startswith(b"Content-Length: ")]
        if not got.startswith(b"HTTP/1.1 %d " % status) or len(body) != int(length[0].split()[1]) or not body.endswith(b".\n"):
            return f"{said[:60]!r} is answered {got[:200]!r}, and not {status}"
        if (b"\r\nAllow: GET, HEAD\r\n" in head) != (status == 405) or b"Access-Control" in head:
            return f"{said[:60]!r} is answered {head!r}"
    return None


def seventeen_visitors(port):
    """Sixteen who say nothing, and one who waits for a place."""
    held = [visitor(port) for _ in range(PLACES)]
    try:
        # Each is let in before the next comes: it is answered.
        for it in held:
            it.sendall(get("/status"))
            if not it.recv(4096).startswith(b"HTTP/1.1 200 "):
                return "one of sixteen visitors is not answered"
        with visitor(port) as late:
            late.sendall(get("/status"))
            late.settimeout(1.5)
            with contextlib.suppress(TimeoutError):
                return f"the seventeenth visitor is answered {late.recv(100)!r}"
            late.settimeout(5)
            held.pop().close()
            if not late.recv(4096).startswith(b"HTTP/1.1 200 "):
                return "the seventeenth visitor is not answered once there is a place"
        return None
    finally:
        for it in held:
            it.close()


def slow_visitors(port):
    """Visitors who say nothing, or little, or read nothing: how long they stay."""
    began = time.monotonic()
    silent, slow, deaf = visitor(port), visitor(port), visitor(port)
    deaf.setsockopt(socket.SOL_SOCKET, socket.SO_RCVBUF, 4096)
    deaf.setblocking(False)
    many = get("/status") * 200
    went = {}
    while time.monotonic() < began + 30 and len(went) < 3:
        for name, it in (("silent", silent), ("slow", slow), ("deaf", deaf)):
            if name in went:
                continue
            try:
                it.setblocking(False)
                if name == "slow":
                    it.send(b"G" if time.monotonic() < began + 1.5 else b"E")
                if name == "deaf":
                    with contextlib.suppress(BlockingIOError):
                        for _ in range(1000):
                            it.send(many)
                elif it.recv(1, socket.MSG_PEEK) == b"":
                    went[name] = time.monotonic() - began
            except BlockingIOError:
                pass
            except OSError:
                went[name] = time.monotonic() - began
        time.sleep(0.5)
        if not is_status(answer(port, get("/status", "Connection: close"))):
            return "another visitor is not answered beside slow ones"
    for name in ("silent", "slow", "deaf"):
        if not 9.5 < went.get(name, 99) < 13:
            return f"a {name} visitor stays {went.get(name, 99):.1f} seconds"
    return None


def while_members_speak(program, until, look):
    """Two members who announce 2,000 routes each; meanwhile somebody looks through the window."""
    *ports, port = free_ports(3)
    clients = [("alpha", 64496, ports[0], "127.0.0.1"), ("beta", 64497, ports[1], "127.0.0.1")]
    with serving(program, clients, 2, "--window", f"127.0.0.1:{port}") as server:
        if server.stdout.readline() != f"window 127.0.0.1:{port}\n".encode():
            return "no line says that there is a window"
        seen = []

        def looks():
            try:
                seen.append(look(port))
            except OSError as fault:
                seen.append(f"a visitor meets {fault!r}")

        looking = threading.Thread(target=looks)
        looking.start()
        members = [
            Member(name, number, f"192.0.2.{11 + at}", ("127.0.0.1", listen), routes(10 + at, ROUTES))
            for at, (name, number, listen, _) in enumerate(clients)
        ]
        wrong = differs(server, members, members, until) or speak(members, until, lambda: not looking.is_alive())
        looking.join()
        return seen[0] or wrong or ends(server, members, until)


class Longer(Member):
    """A member whose paths have a second AS number."""

    def attributes(self, group):
        return attributes([self.number, 64999], self.address, group)


# Alpha announces 30 prefixes, of which its import list drops the first eight; beta the first twenty of them, by longer paths.
DROPPED, ALIKE, ALL = 8, 20, 30
RULES = {"alpha": 'import = [{ prefix = "10.0.0.0/21", max = 24, action = "drop" }]\n'}
COUNTED = {
    "alpha": {"imported": ALL - DROPPED, "filtered": DROPPED, "exported": ALIKE, "preferred": ALL - DROPPED},
    "beta": {"imported": ALIKE, "filtered": 0, "exported": ALL - DROPPED, "preferred": DROPPED},
}


def is_counted(port):
    """Whether all pages of counts say what they must."""
    counted = {name: it["routes"] for name, it in json.loads(told(port, "/protocols/bgp"))["protocols"].items()}
    for name, counts in COUNTED.items():
        alone = json.loads(told(port, f"/protocols/bgp/{name}"))["protocols"]
        listed = [len(json.loads(told(port, f"/routes/{table}/{name}"))["routes"]) for table in ("protocol", "filtered")]
        count = json.loads(told(port, f"/routes/count/protocol/{name}"))["routes"]
        if [it["routes"] for it in alone.values()] != [counts] or [*listed, count] != [counts["imported"], counts["filtered"], counts["imported"]]:
            return False
    return counted == COUNTED


def counts(program, until):
    """Two members who announce the same prefixes, of which the import list of one drops some: what is counted of each."""
    *ports, port = free_ports(3)
    clients = [("alpha", 64496, ports[0], "127.0.0.1"), ("beta", 64497, ports[1], "127.0.0.1")]
    with serving(program, clients, 2, "--window", f"127.0.0.1:{port}", rules=RULES) as server:
        server.stdout.readline()
        members = [
            Member("alpha", 64496, "192.0.2.11", ("127.0.0.1", ports[0]), routes(10, ALL)),
            Longer("beta", 64497, "192.0.2.12", ("127.0.0.1", ports[1]), routes(10, ALIKE)),
        ]
        wrong = speak(members, min(until, time.monotonic() + 20), lambda: is_counted(port))
        if wrong:
            return f"{wrong}: /protocols/bgp says {told(port, '/protocols/bgp')}"
        return ends(server, members, until)


def a_descriptor(program, until):
    """A server that may open two connections more: a member comes before a visitor who is there already."""
    *ports, port = free_ports(3)
    clients = [("alpha", 64496, ports[0], "127.0.0.1"), ("beta", 64497, ports[1], "127.0.0.1")]
    with serving(program, clients, 2, "--window", f"127.0.0.1:{port}") as server:
        server.stdout.readline()
        most = len(os.listdir(f"/proc/{server.pid}/fd")) + 2
        resource.prlimit(server.pid, resource.RLIMIT_NOFILE, (most, most))
        with visitor(port) as guest:
            guest.sendall(get("/status"))
            guest.recv(4096)
            members = [
                Member(name, number, f"192.0.2.{11 + at}", ("127.0.0.1", listen), routes(10 + at, 10))
                for at, (name, number, listen, _) in enumerate(clients)
            ]
            if wrong := differs(server, members, members, until):
                return wrong
            guest.settimeout(5)
            with contextlib.suppress(ConnectionResetError):
                while guest.recv(4096):
                    pass
            return ends(server, members, until)


LOOKS = (
    ("pages seen through the window", pages),
    ("each page of the window", sights),
    ("what the window refuses", refusals),
    ("seventeen visitors at the window", seventeen_visitors),
)

LONG = (("slow visitors at the window", slow_visitors),)


def play_window(program, looks=LOOKS):
    """Plays all: what was tried, and what is wrong or None."""
    plays = [(name, lambda words, until, look=look: while_members_speak(words, until, look)) for name, look in looks]
    plays += [("what the window counts of routes", counts), ("a window on a server without a descriptor for a member", a_descriptor)]
    return each_played(program, plays, SECONDS)


def by_words(words):
    """The results, by the words of a command behind the play's name; None where these are others."""
    program = [word for word in words if word != "--long"]
    if program:
        return play_window(program, LOOKS + LONG if "--long" in words else LOOKS)
    return None
