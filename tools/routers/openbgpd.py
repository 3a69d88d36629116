"""OpenBGPD as a member."""
import os
import pwd
import shutil

from .router import Route, Router, loaded, run


class OpenBgpd(Router):
    name, package, has_short = "openbgpd", "openbgpd", True
    counts, shows_zero = "routes", True
    settings = "`enforce neighbor-as no`"

    @staticmethod
    def missing():
        if not shutil.which("bgpctl") or not shutil.which("bgpd"):
            return "openbgpd is not installed"
        return None if os.getuid() == 0 else "openbgpd wants to be started by root"

    @staticmethod
    def version():
        return run("bgpd", "-V").split()[-1]

    def kinds(self):
        # It can't put others' numbers into the path of a network of its own.
        kinds = super().kinds()
        return [*kinds[:3], kinds[3]._replace(path=(self.number,))]

    def files(self):
        words = []
        for it in self.kinds():
            longer = f" prepend-self {len(it.path) - 1}" if len(it.path) > 1 else ""
            med = f" metric {it.med}" if it.med is not None else ""
            words.append(f"nexthop {self.next_hop}" + "".join(f" community {one}" for one in it.communities) + med + longer)
        networks = "\n".join(f"network {it} set {{ {words[at % 4]} }}" for at, it in enumerate(self.prefixes))
        return {"bgpd.conf": f"""AS {self.number}
router-id {self.next_hop}
listen on {self.address} port {self.place.port}
fib-update no
connect-retry 2
socket "{self.room}/bgpd.sock"
{networks}
neighbor {self.place.server} {{
	remote-as {self.place.number}
	port {self.place.port}
	local-address {self.address}
	multihop 2
	enforce neighbor-as no
	announce as-4byte {"no" if self.short else "yes"}
}}
allow from any
allow to any
match to any set nexthop no-modify
"""}

    def start(self):
        # It locks itself into the home folder of its user.
        os.makedirs(pwd.getpwnam("_openbgpd").pw_dir, exist_ok=True)
        super().start()

    def words(self):
        return "bgpd", "-d", "-f", self.room / "bgpd.conf"

    def ask(self, *words):
        return run("bgpctl", "-s", self.room / "bgpd.sock", *words)

    def neighbor(self):
        return (loaded(self.ask("-j", "show", "neighbor")).get("neighbors") or [{}])[0]

    def state(self):
        it = self.neighbor()
        return ", ".join(filter(None, (it.get("state"), it.get("last_error")))) or "not there"

    def is_up(self):
        return self.neighbor().get("state") == "Established"

    def table(self):
        table = {}
        for it in loaded(self.ask("-j", "show", "rib", "detail", "neighbor", self.place.server)).get("rib", []):
            path = tuple(map(int, it.get("aspath", "").split()))
            table[it["prefix"]] = Route(path, it.get("exit_nexthop"), it.get("metric"), tuple(it.get("communities", ())))
        return table

    def heard(self):
        return self.neighbor().get("stats", {}).get("update", {}).get("received", {}).get("updates", 0)

    def withdraw(self, prefix):
        self.ask("network", "delete", prefix)

    def refresh(self):
        self.ask("neighbor", self.place.server, "refresh")
