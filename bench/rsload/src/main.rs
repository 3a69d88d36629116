//! rsload: a load of BGP clients for a route server, and its measures.

mod changes;
mod conf;
mod members;
mod net;
mod numbering;
mod octets;
mod phases;
mod procs;
mod random;
mod report;
mod session;
mod shared;
mod wait;
mod work;

use report::{Report, Value};
use shared::{NetOpts, Shared};
use std::collections::HashMap;
use std::fmt::Write as _;
use std::net::Ipv4Addr;
use work::{Opts, Profile, Work};

const HELP: &str = "\
rsload run    [options]   play the clients against a server and measure
rsload config [options]   print a configuration for the same clients
rsload members [options]  print what the same clients announce, in JSON

work (of all three):
  --clients N        clients that announce (10)        --late N         clients that come late and announce nothing (0)
  --deaf N           clients that come up with the others, announce nothing and then read nothing (0)
  --prefixes P       prefixes per client (1000)        --profile X      packed | internet | overlap (internet)
  --per-set A        prefixes per attribute set of `packed` (500)
  --degree D         clients that announce each prefix of `overlap` (3)
  --changes M        single changes (200)              --seed S         (1)
  --hold S           Hold Time (90)
where the server listens:
  --target A:P       one address for all (127.0.0.2:1790)
  --port-each        client k connects to port P+k
run:
  --phases abcd      which: a initial, b single changes, c flap, d late clients (abcd)
  --pid P            server process, with its descendants; may be given again
  --max-rss-mb N     give up above this (4500)         --timeout S      for each wait (120)
  --quiet S          silence after a phase (1.5)       --give-up S      silence that ends a wait (15)
  --latency-budget S (30)                              --gap-ms G       between single changes (10)
  --threads T        of the harness (2)                --no-mp          leave out the capability for IPv4 unicast (BIRD wants it)
  --label X          name of the server                --json FILE      report
  --strict           the status is 1 also where a route isn't the best one, or came back to its announcer
status: 0 all as it should be; 1 a fault, or anything missing, too much, altered or lost; 2 options
config:
  --daemon X         ours | bird | bird-tables | bird-secondary | openbgpd | openbgpd-plain | gobgp | frr
  --dir D            for logs and sockets named in the configuration (.)
";

fn die(s: &str) -> ! {
    eprintln!("rsload: {s}");
    std::process::exit(2)
}

struct Args {
    v: HashMap<String, Vec<String>>,
}
impl Args {
    fn one(&self, k: &str) -> Option<&str> {
        self.v.get(k).and_then(|x| x.last()).map(|s| s.as_str())
    }
    fn num<T: std::str::FromStr>(&self, k: &str, d: T) -> T {
        match self.one(k) {
            None => d,
            Some(s) => s.parse().unwrap_or_else(|_| die(&format!("bad value for --{k}"))),
        }
    }
    fn has(&self, k: &str) -> bool {
        self.v.contains_key(k)
    }
}

fn parse() -> (String, Args) {
    let mut it = std::env::args().skip(1);
    let cmd = it.next().unwrap_or_default();
    let flags = ["port-each", "no-mp", "strict"];
    let mut a = Args { v: HashMap::new() };
    while let Some(x) = it.next() {
        if let Some(k) = x.strip_prefix("--") {
            if flags.contains(&k) {
                a.v.entry(k.into()).or_default();
            } else {
                let Some(val) = it.next() else { die(&format!("--{k} wants a value")) };
                a.v.entry(k.into()).or_default().push(val);
            }
        } else {
            die(&format!("what is {x}?"));
        }
    }
    (cmd, a)
}

fn json_text(s: &str) -> String {
    let mut o = String::from("\"");
    for c in s.chars() {
        match c {
            '"' | '\\' => {
                o.push('\\');
                o.push(c)
            }
            c if (c as u32) < 32 => {
                let _ = write!(o, "\\u{:04x}", c as u32);
            }
            c => o.push(c),
        }
    }
    o.push('"');
    o
}

fn number(x: f64) -> String {
    if x == x.trunc() && x.abs() < 1e15 {
        format!("{}", x as i64)
    } else {
        format!("{x:.6}")
    }
}

fn json(label: &str, o: &Opts, reports: &[Report]) -> String {
    let mut s = String::new();
    let _ = write!(
        s,
        "{{\"server\":{},\"profile\":\"{:?}\",\"clients\":{},\"late_clients\":{},\"deaf_clients\":{},\"prefixes\":{},\"per_set\":{},\"degree\":{},\"seed\":{}",
        json_text(label),
        o.profile,
        o.clients,
        o.late,
        o.deaf,
        o.prefixes,
        o.per_set,
        o.degree,
        o.seed
    );
    for r in reports {
        let _ = write!(s, ",\n {}:{{", json_text(&r.name));
        for (i, (k, v)) in r.values.iter().enumerate() {
            let v = match v {
                Value::Num(x) => number(*x),
                Value::Text(t) => json_text(t),
            };
            let _ = write!(s, "{}{}:{}", if i > 0 { "," } else { "" }, json_text(k), v);
        }
        s.push('}');
    }
    s.push_str("}\n");
    s
}

fn main() {
    let (cmd, a) = parse();
    if !["run", "config", "members"].contains(&cmd.as_str()) {
        print!("{HELP}");
        return;
    }
    let profile = match a.one("profile").unwrap_or("internet") {
        "packed" => Profile::Packed,
        "internet" => Profile::Internet,
        "overlap" => Profile::Overlap,
        x => die(&format!("no profile {x}")),
    };
    let o = Opts {
        clients: a.num("clients", 10),
        late: a.num("late", 0),
        deaf: a.num("deaf", 0),
        prefixes: a.num("prefixes", 1000),
        profile,
        per_set: a.num("per-set", 500),
        degree: a.num("degree", 3),
        changes: a.num("changes", 200),
        seed: a.num("seed", 1),
    };
    if o.clients == 0 || o.clients + o.late + o.deaf > 512 {
        die("1 to 512 clients");
    }
    if o.clients * o.prefixes + o.changes > 8_000_000 {
        die("at most 8000000 prefixes");
    }
    if cmd == "members" {
        print!("{}", members::json(&Work::new(o)));
        return;
    }
    let t = a.one("target").unwrap_or("127.0.0.2:1790");
    let (host, port) = t.split_once(':').unwrap_or_else(|| die("--target wants ADDRESS:PORT"));
    let host: Ipv4Addr = host.parse().unwrap_or_else(|_| die("bad address"));
    let port: u16 = port.parse().unwrap_or_else(|_| die("bad port"));
    let host = u32::from(host);
    if host >> 24 != 127 {
        die("only addresses in 127.0.0.0/8");
    }
    let hold = a.num("hold", 90u16);
    if cmd == "config" {
        let c = conf::C {
            total: o.clients + o.late + o.deaf,
            listen: host,
            port,
            per_client_port: a.has("port-each"),
            hold,
            dir: a.one("dir").unwrap_or(".").into(),
        };
        match conf::make(a.one("daemon").unwrap_or("ours"), &c) {
            Some(s) => print!("{s}"),
            None => die("no such daemon"),
        }
        return;
    }
    let targets = if a.has("port-each") { (0..o.clients + o.late + o.deaf).map(|k| (host, port + k as u16)).collect() } else { vec![(host, port)] };
    let n = NetOpts {
        targets,
        hold,
        mp: !a.has("no-mp"),
        threads: a.num("threads", 2),
        pids: a.v.get("pid").map(|v| v.iter().filter_map(|p| p.parse().ok()).collect()).unwrap_or_default(),
        max_rss_mb: a.num("max-rss-mb", 4500),
        timeout: a.num("timeout", 120.0),
        quiet: a.num("quiet", 1.5),
        give_up: a.num("give-up", 15.0),
        latency_budget: a.num("latency-budget", 30.0),
        gap_ms: a.num("gap-ms", 10),
        phases: a.one("phases").unwrap_or("abcd").into(),
    };
    let label = a.one("label").unwrap_or("server").to_string();
    let s = Shared::new(Work::new(o.clone()), n);
    let reports = phases::run(s);
    let j = json(&label, &o, &reports);
    match a.one("json") {
        Some(f) => std::fs::write(f, &j).unwrap_or_else(|e| die(&format!("{f}: {e}"))),
        None => print!("{j}"),
    }
    let mut counts = vec!["missing", "extra", "altered", "altered_prefixes", "foreign_prefixes", "malformed", "unexpected", "drops", "failed", "left_behind"];
    if a.has("strict") {
        counts.extend(["not_best", "own_returned"]);
    }
    let bad = reports.iter().any(|r| r.get_text("fault").is_some() || counts.iter().any(|k| r.get(k).is_some_and(|x| x > 0.0)));
    std::process::exit(bad as i32)
}
