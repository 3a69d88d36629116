//! Configurations of the servers for the same clients.

use crate::work::{as_of, src_of, SERVER_AS, SERVER_ID};
use std::fmt::Write;
use std::net::Ipv4Addr;

pub struct C {
    pub total: usize,
    pub listen: u32,
    pub port: u16,
    pub per_client_port: bool,
    pub hold: u16,
    pub dir: String,
}

fn ip(a: u32) -> Ipv4Addr {
    Ipv4Addr::from(a)
}

pub fn make(daemon: &str, c: &C) -> Option<String> {
    let mut o = String::new();
    let id = ip(SERVER_ID);
    let l = ip(c.listen);
    let (port, hold, dir) = (c.port, c.hold, &c.dir);
    match daemon {
        // this project's own
        "ours" => {
            let _ = writeln!(o, "as = {SERVER_AS}\nidentifier = \"{id}\"\nhold = {hold}\nmultiprotocol = true");
            for k in 0..c.total {
                let p = if c.per_client_port { port + k as u16 } else { port };
                let _ = writeln!(o, "\n[[client]]\nname = \"c{k}\"\nas = {}\nlisten = \"{l}:{p}\"\npeer = \"{}\"", as_of(k), ip(src_of(k)));
            }
        }
        // one table. `secondary` gives each client the best route that isn't its own, but wants a
        // sorted table, which BIRD refuses with multihop sessions, and direct ones don't come up on
        // loopback: so bird-secondary is here for a machine with a LAN interface only.
        "bird" | "bird-secondary" => {
            let sec = daemon == "bird-secondary";
            let _ = writeln!(o, "log \"{dir}/bird.log\" {{ warning, error, fatal, bug }};\nrouter id {id};\nprotocol device {{ }}");
            let _ = writeln!(o, "ipv4 table main4{};\nipv4 table lan;", if sec { " sorted" } else { "" });
            let _ = writeln!(o, "protocol static {{ ipv4 {{ table lan; }}; route 10.255.0.0/16 via \"lo\"; }}");
            let _ = writeln!(
                o,
                "template bgp t_rs {{\n  local {l} port {port} as {SERVER_AS};\n  rs client; passive; {}; strict bind;\n  hold time {hold}; graceful restart off;\n  ipv4 {{ table main4; {} import all; export all; }};\n}}",
                if sec { "direct" } else { "multihop" },
                if sec { "secondary;" } else { "igp table lan;" }
            );
            for k in 0..c.total {
                let _ = writeln!(o, "protocol bgp c{k} from t_rs {{ neighbor {} as {}; }}", ip(src_of(k)), as_of(k));
            }
        }
        // a table for each client, joined by pipes to one in the middle, as exchanges did it before `secondary`.
        // A client's own routes have the lowest preference in its table, so that they hide no other.
        "bird-tables" => {
            let _ = writeln!(o, "log \"{dir}/bird.log\" {{ warning, error, fatal, bug }};\nrouter id {id};\nprotocol device {{ }}");
            let _ = writeln!(o, "ipv4 table main4;\nipv4 table lan;\nattribute int member_no;");
            let _ = writeln!(o, "protocol static {{ ipv4 {{ table lan; }}; route 10.255.0.0/16 via \"lo\"; }}");
            let _ = writeln!(o, "template bgp t_rs {{\n  local {l} port {port} as {SERVER_AS};\n  rs client; passive; multihop; strict bind;\n  hold time {hold}; graceful restart off;\n}}");
            for k in 0..c.total {
                let _ = writeln!(
                    o,
                    "ipv4 table t{k};\nprotocol bgp c{k} from t_rs {{ neighbor {} as {}; ipv4 {{ table t{k}; igp table lan; import filter {{ member_no = {k}; preference = 50; accept; }}; export all; }}; }}\nprotocol pipe p{k} {{ table main4; peer table t{k}; import filter {{ preference = 100; accept; }}; export where member_no != {k}; }}",
                    ip(src_of(k)),
                    as_of(k)
                );
            }
        }
        "openbgpd" | "openbgpd-plain" => {
            let _ = writeln!(o, "AS {SERVER_AS}\nrouter-id {id}\nlisten on {l} port {port}\nfib-update no\nsocket \"{dir}/bgpd.sock\"\nholdtime {hold}");
            let _ = writeln!(o, "rde evaluate all");
            let _ = writeln!(o, "group \"rs\" {{\n  passive\n  transparent-as yes\n  multihop 4\n  announce IPv4 unicast\n  announce IPv6 none\n  announce restart no\n  announce refresh no\n  announce enhanced refresh no\n  local-address {l}");
            for k in 0..c.total {
                let _ = writeln!(o, "  neighbor {} {{ remote-as {}; }}", ip(src_of(k)), as_of(k));
            }
            let _ = writeln!(o, "}}\nallow from any\nallow to any\nmatch to any set nexthop no-modify");
            if daemon == "openbgpd" {
                // `evaluate all` goes on to the next route only where a rule refuses the best; a client's own
                // best route would hide the others
                for k in 0..c.total {
                    let _ = writeln!(o, "deny quick to {} peer-as {}", ip(src_of(k)), as_of(k));
                }
            }
            o = o.replace("; }", " }");
        }
        "gobgp" => {
            let _ = writeln!(o, "[global.config]\n  as = {SERVER_AS}\n  router-id = \"{id}\"\n  port = {port}\n  local-address-list = [\"{l}\"]\n[global.route-selection-options.config]\n  external-compare-router-id = true\n");
            for k in 0..c.total {
                let _ = writeln!(
                    o,
                    "[[neighbors]]\n  [neighbors.config]\n    neighbor-address = \"{}\"\n    peer-as = {}\n  [neighbors.timers.config]\n    hold-time = {hold}\n    keepalive-interval = {}\n  [neighbors.transport.config]\n    passive-mode = true\n    local-address = \"{l}\"\n  [neighbors.route-server.config]\n    route-server-client = true\n",
                    ip(src_of(k)),
                    as_of(k),
                    hold / 3
                );
            }
        }
        "frr" => {
            let _ = writeln!(o, "frr defaults traditional\nlog file {dir}/frr.log warnings\n!\nrouter bgp {SERVER_AS}\n bgp router-id {id}\n no bgp ebgp-requires-policy\n bgp bestpath compare-routerid\n no bgp network import-check");
            let _ = writeln!(o, " timers bgp {} {hold}", hold / 3);
            let _ = writeln!(o, " neighbor rs peer-group\n neighbor rs passive\n neighbor rs ebgp-multihop 255\n neighbor rs advertisement-interval 0");
            for k in 0..c.total {
                let _ = writeln!(o, " neighbor {0} remote-as {1}\n neighbor {0} peer-group rs", ip(src_of(k)), as_of(k));
            }
            let _ = writeln!(o, " !\n address-family ipv4 unicast\n  neighbor rs route-server-client\n  neighbor rs attribute-unchanged\n exit-address-family\n!");
        }
        _ => return None,
    }
    Some(o)
}
