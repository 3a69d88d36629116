"""FRR's bgpd as a member, alone: without zebra, so that nothing reaches the system's routing table."""
import pathlib
import re
import shutil

from .router import Route, Router, loaded, run

PROGRAM = pathlib.Path("/usr/lib/frr/bgpd")


class Frr(Router):
    name, package = "frr", "frr"
    settings = "`no bgp ebgp-requires-policy`, `no neighbor .. enforce-first-as` (checked by itself from some version on)"

    @staticmethod
    def missing():
        return None if PROGRAM.exists() and shutil.which("vtysh") else "frr is not installed"

    @staticmethod
    def version():
        return re.search(r"version (\S+)", run(PROGRAM, "--version"))[1]

    def kinds(self):
        # It sends a MED with each network of its own: 0, where nothing else is set.
        return [it._replace(med=it.med or 0) for it in super().kinds()]

    def files(self):
        maps = []
        for at, it in enumerate(self.kinds()):
            maps.append(f"route-map kind{at} permit 10")
            if it.communities:
                maps.append(f" set community {' '.join(it.communities)}")
            if it.med is not None:
                maps.append(f" set metric {it.med}")
            if len(it.path) > 1:
                maps.append(f" set as-path prepend {' '.join(map(str, it.path[1:]))}")
            maps.append("exit")
        networks = "\n".join(f"  network {it} route-map kind{at % 4}" for at, it in enumerate(self.prefixes))
        return {"bgpd.conf": f"""frr defaults traditional
{chr(10).join(maps)}
ip prefix-list own permit {self.prefixes[0].partition("/")[0]}/8 le 24
route-map to_server permit 10
 match ip address prefix-list own
 set ip next-hop {self.next_hop}
exit
router bgp {self.number}
 bgp router-id {self.next_hop}
 no bgp ebgp-requires-policy
 no bgp network import-check
 neighbor {self.place.server} remote-as {self.place.number}
 neighbor {self.place.server} port {self.place.port}
 neighbor {self.place.server} update-source {self.address}
 neighbor {self.place.server} ebgp-multihop 2
 no neighbor {self.place.server} enforce-first-as
 neighbor {self.place.server} timers connect 2
 neighbor {self.place.server} advertisement-interval 0
 address-family ipv4 unicast
{networks}
  neighbor {self.place.server} route-map to_server out
 exit-address-family
"""}

    def words(self):
        room = self.room
        own = ("-i", room / "pid", "-z", room / "zserv", "--vty_socket", room)
        return PROGRAM, "-f", room / "bgpd.conf", "-p", str(self.place.port), "-l", self.address, "-Z", "-S", "-P", "0", *own

    def ask(self, *lines):
        return run("vtysh", "--vty_socket", self.room, "-d", "bgpd", *(word for it in lines for word in ("-c", it)))

    def neighbor(self):
        return loaded(self.ask(f"show bgp neighbors {self.place.server} json")).get(self.place.server, {})

    def state(self):
        it = self.neighbor()
        return ", ".join(filter(None, (it.get("bgpState"), it.get("lastResetDueTo")))) or "not there"

    def is_up(self):
        return self.neighbor().get("bgpState") == "Established"

    def table(self):
        table = {}
        for prefix, it in loaded(self.ask("show bgp ipv4 unicast json detail")).get("routes", {}).items():
            # A list after its head, or in later versions a table with the paths.
            for one in it["paths"] if isinstance(it, dict) else it[1:]:
                if one.get("peer", {}).get("peerId") == self.place.server:
                    path = tuple(number for part in one["aspath"]["segments"] for number in part["list"])
                    pairs = tuple(one.get("community", {}).get("list", ()))
                    table[prefix] = Route(path, one["nexthops"][0]["ip"], one.get("metric"), pairs)
        return table

    def heard(self):
        return self.neighbor().get("messageStats", {}).get("updatesRecv", 0)

    def withdraw(self, prefix):
        self.ask("configure terminal", f"router bgp {self.number}", "address-family ipv4 unicast", f"no network {prefix}")

    def refresh(self):
        self.ask(f"clear bgp ipv4 unicast {self.place.server} in")
