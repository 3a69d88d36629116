"""GoBGP as a member."""
import ipaddress
import shutil
import socket
import struct

from peers.speaker import attributes

from .router import Route, Router, loaded, run

# Its states of a session, by their numbers in its own JSON.
STATES = ("not there", "idle", "connect", "active", "opensent", "openconfirm", "established")


def dump(routes):
    """A table as an MRT file (RFC 6396, 4.3) without a path of its own: the daemon puts its number in front."""
    index = struct.pack(">4sHHB4s4sI", socket.inet_aton("10.255.0.4"), 0, 1, 2, *2 * (socket.inet_aton("10.255.0.4"),), 0)
    records = [(1, index)]
    for number, (prefix, it) in enumerate(routes.items()):
        network = ipaddress.ip_network(prefix)
        octets = network.network_address.packed[: (network.prefixlen + 7) // 8]
        pairs = [tuple(map(int, one.split(":"))) for one in it.communities]
        field = attributes(it.path[1:], it.next_hop, it.med, pairs)
        entry = struct.pack(">HIH", 0, 0, len(field)) + field
        records.append((2, struct.pack(">IB", number, network.prefixlen) + octets + struct.pack(">H", 1) + entry))
    return b"".join(struct.pack(">IHHI", 0, 13, kind, len(body)) + body for kind, body in records)


class GoBgp(Router):
    name, package, refreshes = "gobgp", "gobgpd", False

    @staticmethod
    def missing():
        return None if shutil.which("gobgpd") and shutil.which("gobgp") else "gobgpd is not installed"

    @staticmethod
    def version():
        return run("gobgpd", "--version").split()[-1]

    def files(self):
        return {"gobgpd.conf": f"""[global.config]
as = {self.number}
router-id = "{self.next_hop}"
port = {self.place.port}
local-address-list = ["{self.address}"]
[[neighbors]]
[neighbors.config]
neighbor-address = "{self.place.server}"
peer-as = {self.place.number}
[neighbors.timers.config]
connect-retry = 5
idle-hold-time-after-reset = 5
[neighbors.transport.config]
local-address = "{self.address}"
remote-port = {self.place.port}
[neighbors.ebgp-multihop.config]
enabled = true
multihop-ttl = 2
"""}

    def words(self):
        room = self.room
        return "gobgpd", "-f", room / "gobgpd.conf", "-t", "toml", "--api-hosts", f"{self.address}:{self.place.port + 1}", "--pprof-disable"

    def after_start(self):
        # Its command may end before the end of the file was taken: what is not there yet is given again, first.
        table, missing = self.room / "routes.mrt", self.sent()
        for _ in range(50):
            table.write_bytes(dump({**missing, **self.sent()}))
            self.ask("mrt", "inject", "global", str(table))
            there = loaded(self.ask("-j", "global", "rib")) or {}
            if not (missing := {prefix: it for prefix, it in self.sent().items() if prefix not in there}):
                break

    def ask(self, *words):
        return run("gobgp", "-u", self.address, "-p", str(self.place.port + 1), *words)

    def neighbor(self):
        return loaded(self.ask("-j", "neighbor", self.place.server)) or {}

    def state(self):
        number = self.neighbor().get("state", {}).get("session_state", 0)
        return STATES[number] if number in range(len(STATES)) else str(number)

    def is_up(self):
        return self.state() == "established"

    def table(self):
        table = {}
        for prefix, paths in (loaded(self.ask("-j", "neighbor", self.place.server, "adj-in")) or {}).items():
            if not isinstance(paths, list):
                return {}
            seen = {it["type"]: it for it in paths[0]["attrs"]}
            path = tuple(number for part in seen[2]["as_paths"] for number in part["asns"])
            pairs = tuple(f"{it >> 16}:{it & 65535}" for it in seen.get(8, {}).get("communities", ()))
            table[prefix] = Route(path, seen[3]["nexthop"], seen.get(4, {}).get("metric"), pairs)
        return table

    def heard(self):
        return self.neighbor().get("state", {}).get("messages", {}).get("received", {}).get("update", 0)

    def withdraw(self, prefix):
        self.ask("global", "rib", "del", prefix)

    def refresh(self):
        self.ask("neighbor", self.place.server, "softresetin")
