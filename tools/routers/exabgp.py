"""ExaBGP as a member."""
import contextlib
import os
import pwd
import re
import shutil

from .router import Route, Router, run

LINE = re.compile(r"ipv4 unicast ([\d.]+/\d+) next-hop ([\d.]+)(.*)")


class ExaBgp(Router):
    name, package, has_short = "exabgp", "exabgp", True
    keeps_told, has_long = True, True

    @staticmethod
    def missing():
        return None if shutil.which("exabgp") and shutil.which("exabgpcli") else "exabgp is not installed"

    @staticmethod
    def version():
        return re.search(r"ExaBGP : (\S+)", run("exabgp", "--version"))[1]

    def line(self, prefix, it):
        med = f" med {it.med}" if it.med is not None else ""
        pairs = f" community [ {' '.join(it.communities)} ]" if it.communities else ""
        return f"route {prefix} next-hop {it.next_hop} as-path [ {' '.join(map(str, it.path))} ]{med}{pairs}"

    def files(self):
        routes = "\n".join(f"\t\t{self.line(*it)};" for it in self.sent().items())
        return {"exabgp.conf": f"""neighbor {self.place.server} {{
	router-id {self.next_hop};
	local-address {self.address};
	local-as {self.number};
	peer-as {self.place.number};
	connect {self.place.port};
	adj-rib-in true;
	family {{ ipv4 unicast; }}
	capability {{ asn4 {"disable" if self.short else "enable"}; route-refresh enable; extended-message {"enable" if self.long else "disable"}; }}
	static {{
{routes}
	}}
}}
"""}

    def start(self):
        (self.room / "run").mkdir(exist_ok=True)
        for end in ("in", "out"):
            with contextlib.suppress(FileExistsError):
                os.mkfifo(self.room / "run" / f"interop.{end}", 0o600)
        super().start()

    def surroundings(self):
        own = {
            "daemon.user": pwd.getpwuid(os.getuid()).pw_name,
            "daemon.drop": "false",
            "api.pipename": "interop",
            "api.chunk": "1000",
            "log.routes": "false",
        }
        return {**os.environ, **{f"exabgp.{name}": value for name, value in own.items()}}

    def words(self):
        return "exabgp", "--root", self.room, self.room / "exabgp.conf"

    def ask(self, *words):
        return run("exabgpcli", "--root", self.room, *words, env=self.surroundings())

    def neighbor(self):
        return self.ask("show", "neighbor", "extensive")

    def state(self):
        found = re.search(r"^ *state +(\S+)", self.neighbor(), re.M)
        return found[1].lower() if found else "not there"

    def is_up(self):
        return self.state() == "established"

    def table(self):
        table = {}
        for line in self.ask("show", "adj-rib", "in", "extensive").splitlines():
            if found := LINE.search(line):
                prefix, next_hop, rest = found.groups()
                path = re.search(r"as-path \[ ?([\d ]*)\]", rest)
                med = re.search(r" med (\d+)", rest)
                pairs = re.search(r" community (?:\[ ([\d: ]+) \]|([\d:]+))", rest)
                table[prefix] = Route(
                    tuple(map(int, path[1].split())) if path else (),
                    next_hop,
                    int(med[1]) if med else None,
                    tuple((pairs[1] or pairs[2]).split()) if pairs else (),
                )
        return table

    def heard(self):
        found = re.search(r"^ *update: +\d+ +(\d+)", self.neighbor(), re.M)
        return int(found[1]) if found else 0

    def withdraw(self, prefix):
        self.ask("withdraw", "route", prefix, "next-hop", self.next_hop)

    def refresh(self):
        self.ask("announce", "route-refresh", "ipv4", "unicast")
