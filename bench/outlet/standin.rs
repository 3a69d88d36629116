//! The outlet in plain Rust: the same rows, the same list of what waits, the same work and the same octets as outlet.rt.txt,
//! to be measured beside it.

use std::collections::{BTreeMap, HashMap};
use std::sync::Arc;
use std::time::Instant;

const PREFIXES: u32 = 300_000;
const WAITING: u32 = 100_000;
const CHANGED: u32 = 1_000;
const TURNS: u32 = 20;

/// Attributes: their field as it is sent.
#[derive(PartialEq)]
struct Attrs(Vec<u8>);

type Prefix = (u32, u8);
type Route = Option<Arc<Attrs>>;

fn attrs(number: u32) -> Arc<Attrs> {
    let [_, high, middle, low] = number.to_be_bytes();
    let mut field = vec![0x40, 1, 1, 0, 0x40, 2, 14, 2, 3, 0, 0, 0xfc, 10, 0, 1, high, middle, 0, 1, 0, low];
    field.extend([0x40, 3, 4, 0xc0, 0, 2, 11, 0x80, 4, 4, 0, high, middle, low]);
    Arc::new(Attrs(field))
}

fn prefix(n: u32) -> Prefix {
    (0x1000_0000 | (n.wrapping_mul(7_919) & 0x000f_ffff) << 8, 24)
}

/// Routes of one member, by numbers of prefixes.
#[derive(Default)]
struct Tables {
    numbers: BTreeMap<Prefix, u32>,
    rows: Vec<(Prefix, Vec<(usize, Arc<Attrs>)>)>,
}

impl Tables {
    fn put(&mut self, n: u32, set: &Arc<Attrs>) -> (u32, Prefix) {
        let prefix = prefix(n);
        let next = self.rows.len() as u32;
        let number = *self.numbers.entry(prefix).or_insert(next);
        if number == next {
            self.rows.push((prefix, Vec::with_capacity(1)));
        }
        let routes = &mut self.rows[number as usize].1;
        match routes.binary_search_by_key(&10, |it| it.0) {
            Ok(at) => routes[at].1 = set.clone(),
            Err(at) => routes.insert(at, (10, set.clone())),
        }
        (number, prefix)
    }
}

/// A prefix that waits, with what was told there, and the next one with equal attributes.
struct Wait {
    prefix: Prefix,
    number: u32,
    told: Route,
    next: u32,
    is_open: bool,
}

struct Outlet {
    client: usize,
    rows: Vec<Route>,
    touched: HashMap<u32, Prefix>,
    waits: Vec<Wait>,
    first: usize,
    octets: Vec<u8>,
}

fn hash_of(attrs: &Attrs) -> u64 {
    attrs.0.iter().fold(0xcbf2_9ce4_8422_2325, |hash, octet| (hash ^ u64::from(*octet)).wrapping_mul(0x100_0000_01b3))
}

impl Outlet {
    fn new(client: usize) -> Outlet {
        Outlet { client, rows: vec![], touched: HashMap::with_capacity(4096), waits: vec![], first: 0, octets: vec![] }
    }

    /// What is due: the first route of another client.
    fn due(&self, tables: &Tables, number: u32) -> Route {
        let routes = &tables.rows[number as usize].1;
        routes.iter().find(|it| it.0 != self.client && it.1.0.len() < 4000).map(|it| it.1.clone())
    }

    fn turn(&mut self, tables: &Tables) {
        if self.rows.len() < tables.rows.len() {
            self.rows.resize(tables.rows.len() + tables.rows.len() / 8, None);
        }
        let mut touched: Vec<(u32, Prefix)> = self.touched.drain().collect();
        touched.sort_unstable_by_key(|it| it.1);
        let mut made = Vec::with_capacity(self.waits.len() - self.first + touched.len());
        let waits = std::mem::take(&mut self.waits);
        let mut before = waits.into_iter().skip(self.first).filter(|it| it.is_open).peekable();
        for (number, prefix) in touched {
            let due = self.rows[number as usize].clone();
            let now = self.due(tables, number);
            while let Some(it) = before.next_if(|it| it.prefix < prefix) {
                made.push(it);
            }
            if now == due {
                continue;
            }
            self.rows[number as usize] = now;
            let waited = before.next_if(|it| it.prefix == prefix);
            let told = waited.map_or(due, |it| it.told);
            if told != self.rows[number as usize] {
                made.push(Wait { prefix, number, told, next: u32::MAX, is_open: true });
            }
        }
        made.extend(before);
        self.waits = made;
        self.first = 0;
        self.link();
    }

    /// Links each place to the next one with equal attributes.
    fn link(&mut self) {
        let mut last: HashMap<u64, u32> = HashMap::with_capacity(self.waits.len());
        for at in (0..self.waits.len()).rev() {
            if let Some(attrs) = &self.rows[self.waits[at].number as usize] {
                self.waits[at].next = last.insert(hash_of(attrs), at as u32).unwrap_or(u32::MAX);
            }
        }
    }

    /// The octets of the next message; none where nothing waits.
    fn fill(&mut self) -> usize {
        self.octets.clear();
        while self.first < self.waits.len() && !self.waits[self.first].is_open {
            self.first += 1;
        }
        let Some(place) = self.waits.get(self.first) else { return 0 };
        let Some(attrs) = self.rows[place.number as usize].clone() else { return 0 };
        self.octets.extend([0xff; 16]);
        self.octets.extend([0, 0, 2, 0, 0]);
        self.octets.extend((attrs.0.len() as u16).to_be_bytes());
        self.octets.extend(&attrs.0);
        let mut at = self.first as u32;
        while at != u32::MAX && self.octets.len() + 4 <= 4096 {
            let place = &mut self.waits[at as usize];
            let is_same = self.rows[place.number as usize].as_ref().is_some_and(|it| Arc::ptr_eq(it, &attrs) || *it == attrs);
            if place.is_open && is_same {
                self.octets.push(place.prefix.1);
                self.octets.extend(&place.prefix.0.to_be_bytes()[..3]);
                place.is_open = false;
            }
            at = place.next;
        }
        let size = self.octets.len() as u16;
        self.octets[16..18].copy_from_slice(&size.to_be_bytes());
        self.octets.len()
    }

    fn drain(&mut self) -> usize {
        let mut octets = 0;
        loop {
            match self.fill() {
                0 => return octets,
                count => octets += count,
            }
        }
    }
}

fn tell() {
    let mut tables = Tables::default();
    let mut outlets: Vec<Outlet> = (0..4).map(Outlet::new).collect();
    let (mut touch, mut turn, mut fill, mut octets) = (0, 0, 0, 0);
    for first in (0..PREFIXES).step_by(CHANGED as usize) {
        let mut set = attrs(first);
        let mut changed = Vec::new();
        for n in first..first + CHANGED {
            if n % 3 == 0 {
                set = attrs(n / 3);
            }
            changed.push(tables.put(n, &set));
        }
        for outlet in &mut outlets {
            let start = Instant::now();
            for (number, prefix) in &changed {
                outlet.touched.insert(*number, *prefix);
            }
            let touched = start.elapsed().as_nanos();
            outlet.turn(&tables);
            let turned = start.elapsed().as_nanos();
            octets += outlet.drain();
            touch += touched;
            turn += turned - touched;
            fill += start.elapsed().as_nanos() - turned;
        }
    }
    let told = 4 * u128::from(PREFIXES);
    println!("touch {}\nturn {}\nfill {}\noctets {octets}", touch * 1000 / told, turn * 1000 / told, fill * 1000 / told);
}

fn wait() {
    let mut tables = Tables::default();
    let mut outlet = Outlet::new(0);
    let mut set = attrs(0);
    for n in 0..WAITING {
        if n % 3 == 0 {
            set = attrs(n / 3);
        }
        let (number, prefix) = tables.put(n, &set);
        outlet.touched.insert(number, prefix);
    }
    outlet.turn(&tables);
    let mut spent = 0;
    for turn in 0..TURNS {
        for k in 0..CHANGED {
            if k % 3 == 0 {
                set = attrs(turn * CHANGED + k + 1_000_000);
            }
            let (number, prefix) = tables.put(k * (WAITING / CHANGED) + turn, &set);
            outlet.touched.insert(number, prefix);
        }
        let start = Instant::now();
        outlet.turn(&tables);
        spent += start.elapsed().as_nanos();
    }
    println!("waiting {}", spent / u128::from(TURNS));
}

fn main() {
    let word = std::env::args().nth(1);
    if word.as_deref().is_none_or(|it| it == "turns") {
        tell();
    }
    if word.is_none() {
        return wait();
    }
    if word.as_deref() == Some("turns") {
        return;
    }
    let mut tables = Tables::default();
    let mut set = attrs(0);
    let mut all = Vec::new();
    for n in 0..PREFIXES {
        if n % 3 == 0 {
            set = attrs(n / 3);
        }
        all.push(tables.put(n, &set));
    }
    let count = if word.as_deref() == Some("whole") { 4 } else { 0 };
    let mut outlets: Vec<Outlet> = (0..count).map(Outlet::new).collect();
    for outlet in &mut outlets {
        outlet.touched.extend(all.iter().copied());
        outlet.turn(&tables);
        outlet.drain();
    }
    println!("outlets {}", outlets.len());
}
