//! What `put` and `clear` of `rs_adjin` do, in plain Rust with the same idea: a number for each
//! prefix by a tree, the routes by number, and what a client holds as bits by number. It prints
//! the nanoseconds a route, as `held.rt.txt` does.

#[path = "../common/attrs.rs"]
mod attrs;

use attrs::{Attrs, Head};
use std::collections::BTreeMap;
use std::hint::black_box;
use std::rc::Rc;
use std::time::Instant;

const CLIENTS: usize = 10;
const PREFIXES: u32 = 100_000;

#[derive(Clone, Copy, PartialEq, Eq, PartialOrd, Ord)]
struct Prefix {
    bits: u32,
    len: u8,
}

struct Route {
    client: usize,
    attrs: Rc<Attrs>,
}

struct Row {
    prefix: Option<Prefix>,
    routes: Vec<Route>,
}

#[derive(Default)]
struct Held {
    words: Vec<u64>,
    count: usize,
}

fn make_room<T>(items: &mut Vec<T>, wanted: usize) {
    if wanted > items.capacity() {
        items.reserve_exact(wanted + wanted / 8 - items.len());
    }
}

impl Held {
    fn add(&mut self, number: u32) {
        let wanted = number as usize / 64 + 1;
        if wanted > self.words.len() {
            make_room(&mut self.words, wanted);
            self.words.resize(wanted, 0);
        }
        self.words[number as usize / 64] |= 1 << (number % 64);
        self.count += 1;
    }
}

struct AdjIns {
    numbers: BTreeMap<Prefix, u32>,
    rows: Vec<Row>,
    held: Vec<Held>,
}

impl AdjIns {
    fn put(&mut self, client: usize, prefix: Prefix, attrs: &Rc<Attrs>) -> bool {
        let number = match self.numbers.get(&prefix) {
            Some(number) => *number,
            None => {
                let number = self.rows.len() as u32;
                make_room(&mut self.rows, number as usize + 1);
                self.rows.push(Row {
                    prefix: Some(prefix),
                    routes: Vec::new(),
                });
                self.numbers.insert(prefix, number);
                number
            }
        };
        let routes = &mut self.rows[number as usize].routes;
        match routes.binary_search_by_key(&client, |route| route.client) {
            Ok(place) => {
                if routes[place].attrs == *attrs {
                    return false;
                }
                routes[place].attrs = attrs.clone();
            }
            Err(place) => {
                self.held[client].add(number);
                let attrs = attrs.clone();
                routes.insert(place, Route { client, attrs });
            }
        }
        true
    }

    fn clear(&mut self, client: usize) {
        let held = &mut self.held[client];
        for (place, word) in held.words.iter().enumerate() {
            let mut word = *word;
            while word != 0 {
                let number = place * 64 + word.trailing_zeros() as usize;
                let row = &mut self.rows[number];
                if row.prefix.is_some() {
                    if let Ok(place) = row.routes.binary_search_by_key(&client, |route| route.client) {
                        row.routes.remove(place);
                    }
                }
                word &= word - 1;
            }
        }
        held.words.clear();
        held.count = 0;
    }

    fn put_all(&mut self, client: usize, prefixes: &[Prefix], attrs: &Rc<Attrs>) -> usize {
        prefixes.iter().filter(|prefix| !self.put(client, **prefix, attrs)).count()
    }
}

fn main() {
    let prefixes: Vec<Prefix> = (0..PREFIXES)
        .map(|n| {
            let place = u64::from(n) * 61_803 % u64::from(PREFIXES);
            Prefix {
                bits: (place as u32) * 256 + 0x0a00_0000,
                len: 24,
            }
        })
        .collect();
    let head = |kind, len| Head {
        kind,
        optional: false,
        transitive: true,
        partial: false,
        len,
    };
    let attrs = Rc::new(Attrs {
        heads: vec![head(1, 1), head(2, 6), head(3, 4)],
        values: vec![0, 2, 1, 0, 0, 0xfb, 0xf0, 0xc0, 0, 2, 1],
    });
    let mut ins = AdjIns {
        numbers: BTreeMap::new(),
        rows: Vec::new(),
        held: (0..CLIENTS).map(|_| Held::default()).collect(),
    };
    let routes = u128::from(PREFIXES);
    let others = routes * (CLIENTS as u128 - 1);

    let start = Instant::now();
    let first = ins.put_all(0, &prefixes, &attrs);
    println!("first_put {} {first}", start.elapsed().as_nanos() / routes);

    let start = Instant::now();
    let unchanged: usize = (1..CLIENTS).map(|client| ins.put_all(client, &prefixes, &attrs)).sum();
    println!("later_put {} {unchanged}", start.elapsed().as_nanos() / others);

    let start = Instant::now();
    let same = ins.put_all(0, &prefixes, &attrs);
    println!("same_put {} {}", start.elapsed().as_nanos() / routes, PREFIXES as usize - same);

    let start = Instant::now();
    for client in 0..CLIENTS {
        ins.clear(client);
    }
    let nanoseconds = start.elapsed().as_nanos() / (routes + others);
    let left = ins.rows.iter().filter(|row| !row.routes.is_empty()).count();
    println!("clear {nanoseconds} {left}");
    black_box(&ins);
}
