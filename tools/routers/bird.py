"""BIRD 2 as a member."""
import re
import shutil

from .router import Route, Router, run


class Bird(Router):
    name, package, has_short = "bird", "bird2", True
    has_long = True
    counts = "routes"

    @staticmethod
    def missing():
        return None if shutil.which("bird") and shutil.which("birdc") else "bird is not installed"

    @staticmethod
    def version():
        return run("bird", "--version").split()[-1]

    def files(self, gone=()):
        lines = [f"\troute {it} blackhole {{ kind = {at % 4}; }};" for at, it in enumerate(self.prefixes) if it not in gone]
        return {"bird.conf": f"""router id {self.next_hop};
attribute int kind;
protocol device {{ }}
protocol static {{
	ipv4;
{chr(10).join(lines)}
}}
filter to_server {{
	if source != RTS_STATIC then reject;
	if kind = 1 then {{ bgp_community.add(({self.number}, 100)); bgp_community.add((65000, 1)); }}
	if kind = 2 then {{ bgp_med = 50; bgp_path.prepend({self.number}); bgp_path.prepend({self.number}); }}
	if kind = 3 then {{
		bgp_med = 7;
		bgp_path.prepend(65551);
		bgp_path.prepend(64511);
		bgp_community.add(({self.number}, 300));
	}}
	accept;
}}
protocol bgp route_server {{
	local {self.address} port {self.place.port} as {self.number};
	neighbor {self.place.server} port {self.place.port} as {self.place.number};
	strict bind;
	multihop;
	connect delay time 1;
	enable as4 {"off" if self.short else "on"};
	enable extended messages {"on" if self.long else "off"};
	ipv4 {{ next hop address {self.next_hop}; import all; export filter to_server; }};
}}
"""}

    def words(self):
        return "bird", "-f", "-c", self.room / "bird.conf", "-s", self.room / "ctl"

    def ask(self, *words):
        return run("birdc", "-s", self.room / "ctl", *words)

    def state(self):
        found = re.search(r"^route_server\s+BGP\s+\S+\s+\S+\s+\S+ *(.*)$", self.ask("show", "protocols"), re.M)
        return " ".join(found[1].split()) if found else "not there"

    def is_up(self):
        return self.state() == "Established"

    def table(self):
        table, prefix, seen = {}, None, {}
        for line in self.ask("show", "route", "all", "protocol", "route_server").splitlines():
            if found := re.match(r"([\d.]+/\d+) ", line):
                prefix, seen = found[1], {}
            elif found := re.match(r"\s+(?:BGP\.|bgp_)(\w+): ?(.*)", line):
                # BIRD 3 calls the path so.
                seen[{"path": "as_path"}.get(found[1], found[1])] = found[2]
            if prefix and seen:
                pairs = re.findall(r"\((\d+),(\d+)\)", seen.get("community", ""))
                table[prefix] = Route(
                    tuple(map(int, seen.get("as_path", "").split())),
                    seen.get("next_hop"),
                    int(seen["med"]) if "med" in seen else None,
                    tuple(f"{high}:{low}" for high, low in pairs),
                )
        return table

    def heard(self):
        found = re.search(r"Import updates: +(\d+)", self.ask("show", "protocols", "all", "route_server"))
        return int(found[1]) if found else 0

    def withdraw(self, prefix):
        (self.room / "bird.conf").write_text(self.files([prefix])["bird.conf"])
        self.ask("configure")

    def refresh(self):
        self.ask("reload", "in", "route_server")
