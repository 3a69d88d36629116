//! The work: clients, prefixes, attribute sets, who announces what.
//! All of it follows from the options and the seed.

use crate::numbering::PER_BLOCK;
use crate::octets::{attr, update};
use crate::random::Rng;
use std::collections::HashMap;
use std::sync::Arc;

pub const SERVER_AS: u32 = 64500;
pub const SERVER_ID: u32 = 0x0aff_ff01; // 10.255.255.1

// ---- hashing of attribute octets ----
#[derive(Default, Clone)]
pub struct H(u64);
impl std::hash::Hasher for H {
    fn finish(&self) -> u64 {
        self.0
    }
    fn write(&mut self, b: &[u8]) {
        let mut h = self.0 ^ (b.len() as u64);
        let mut c = b.chunks_exact(8);
        for w in &mut c {
            h = (h ^ u64::from_le_bytes(w.try_into().unwrap())).wrapping_mul(0x9fb2_1c65_1e98_df25);
            h ^= h >> 32;
        }
        for &x in c.remainder() {
            h = (h ^ x as u64).wrapping_mul(0x0000_0100_0000_01b3);
        }
        self.0 = h ^ (h >> 29);
    }
}
pub type Build = std::hash::BuildHasherDefault<H>;

#[derive(Clone)]
pub struct Set {
    pub owner: u32,
    pub octets: Box<[u8]>,
    pub path_len: u8,
    pub origin: u8,
}

pub struct Client {
    pub asn: u32,
    pub id: u32,
    pub src: u32,
    /// attribute set and its prefixes, in the order of announcement
    pub groups: Vec<(u32, Vec<u32>)>,
}

#[derive(Clone, Copy, PartialEq, Debug)]
pub enum Profile {
    Packed,
    Internet,
    Overlap,
}

#[derive(Clone)]
pub struct Opts {
    pub clients: usize,
    pub late: usize,
    /// come up with the others and then read nothing
    pub deaf: usize,
    pub prefixes: usize,
    pub profile: Profile,
    /// prefixes per attribute set for Packed
    pub per_set: usize,
    /// announcers per prefix for Overlap
    pub degree: usize,
    pub changes: usize,
    pub seed: u64,
}

pub struct Work {
    pub o: Opts,
    pub clients: Vec<Client>,
    pub sets: Vec<Set>,
    pub by_octets: HashMap<Box<[u8]>, u32, Build>,
    /// number of prefixes of the tables (without those of the single changes)
    pub universe: usize,
    /// announcers of prefix p: ann[start[p]..start[p+1]] as (client, set)
    pub start: Vec<u32>,
    pub ann: Vec<(u16, u32)>,
    /// single changes: client, prefix, set
    pub single: Vec<(usize, u32, u32)>,
}

pub fn src_of(k: usize) -> u32 {
    0x7f00_0100 + (k / 250) as u32 * 256 + (k % 250) as u32 + 1
}
pub fn next_hop_of(k: usize) -> u32 {
    0x0aff_0000 + (k / 250) as u32 * 256 + (k % 250) as u32 + 1
}
pub fn as_of(k: usize) -> u32 {
    if k % 5 == 4 {
        4_200_000_000 + k as u32
    } else {
        64_512 + k as u32
    }
}

fn make_set(r: &mut Rng, k: usize, profile: Profile) -> Set {
    let asn = as_of(k);
    let mut path = vec![asn];
    let len = match profile {
        Profile::Packed => 2,
        // 2 to 6, mostly 3 and 4
        _ => [2, 3, 3, 3, 4, 4, 4, 5, 5, 6][r.below(10) as usize],
    };
    while path.len() < len {
        // numbers that are neither private nor the server's nor reserved
        let a = if r.below(4) == 0 { 131_072 + r.below(70_000) as u32 } else { 1 + r.below(64_000) as u32 };
        if a != 23_456 {
            path.push(a);
        }
    }
    let origin = if profile == Profile::Packed || r.below(10) < 8 { 0 } else { 2 };
    let mut o = Vec::with_capacity(96);
    attr(&mut o, 0x40, 1, &[origin]);
    let mut v = vec![2u8, path.len() as u8];
    for a in &path {
        v.extend_from_slice(&a.to_be_bytes());
    }
    attr(&mut o, 0x40, 2, &v);
    attr(&mut o, 0x40, 3, &next_hop_of(k).to_be_bytes());
    if profile == Profile::Packed {
        attr(&mut o, 0x80, 4, &(r.next() as u32 >> 8).to_be_bytes());
    } else {
        if r.below(10) < 3 {
            attr(&mut o, 0x80, 4, &(r.below(1000) as u32).to_be_bytes());
        }
        if r.below(20) == 0 {
            attr(&mut o, 0x40, 6, &[]);
        }
        if r.below(12) == 0 {
            let mut v = path[path.len() - 1].to_be_bytes().to_vec();
            v.extend_from_slice(&(0x2d00_0001 + r.below(1 << 20) as u32).to_be_bytes());
            attr(&mut o, 0xc0, 7, &v);
        }
        if r.below(10) < 9 {
            let mut c: Vec<u32> = (0..1 + r.below(8))
                .map(|_| ((1_000 + r.below(60_000)) as u32) << 16 | r.below(65_536) as u32)
                .filter(|c| c >> 16 != SERVER_AS)
                .collect();
            c.sort_unstable();
            c.dedup();
            if !c.is_empty() {
                let v: Vec<u8> = c.iter().flat_map(|c| c.to_be_bytes()).collect();
                attr(&mut o, 0xc0, 8, &v);
            }
        }
        if r.below(7) == 0 {
            let mut c: Vec<[u32; 3]> = (0..1 + r.below(3))
                .map(|_| [1 + r.below(400_000) as u32, r.below(1 << 20) as u32, r.below(1 << 20) as u32])
                .collect();
            c.sort_unstable();
            c.dedup();
            let v: Vec<u8> = c.iter().flatten().flat_map(|x| x.to_be_bytes()).collect();
            attr(&mut o, 0xc0, 32, &v);
        }
    }
    Set { owner: k as u32, octets: o.into(), path_len: path.len() as u8, origin }
}

impl Work {
    pub fn new(o: Opts) -> Work {
        let total = o.clients + o.late + o.deaf;
        let mut r = Rng(o.seed);
        let mut sets: Vec<Set> = Vec::new();
        let mut by_octets: HashMap<Box<[u8]>, u32, Build> = HashMap::default();
        let mut fresh = |r: &mut Rng, k: usize, sets: &mut Vec<Set>| -> u32 {
            loop {
                let s = make_set(r, k, o.profile);
                if !by_octets.contains_key(&s.octets) {
                    by_octets.insert(s.octets.clone(), sets.len() as u32);
                    sets.push(s);
                    return sets.len() as u32 - 1;
                }
            }
        };
        // which prefixes each client announces
        let mut own: Vec<Vec<u32>> = vec![Vec::new(); o.clients];
        let universe;
        if o.profile == Profile::Overlap {
            let d = o.degree.clamp(1, o.clients.max(1));
            universe = o.clients * o.prefixes / d;
            for p in 0..universe {
                let mut chosen: Vec<usize> = Vec::with_capacity(d);
                while chosen.len() < d {
                    let c = r.below(o.clients as u64) as usize;
                    if !chosen.contains(&c) {
                        chosen.push(c);
                    }
                }
                for c in chosen {
                    own[c].push(p as u32);
                }
            }
        } else {
            universe = o.clients * o.prefixes;
            // blocks go to the clients in a mixed order
            let blocks = universe.div_ceil(PER_BLOCK as usize);
            let mut order: Vec<u32> = (0..blocks as u32).collect();
            if universe % PER_BLOCK as usize == 0 {
                r.shuffle(&mut order);
            }
            for i in 0..universe {
                let id = order[i / PER_BLOCK as usize] * PER_BLOCK + (i as u32 % PER_BLOCK);
                own[i / o.prefixes].push(id);
            }
        }
        let mut clients = Vec::new();
        for k in 0..total {
            let mut groups = Vec::new();
            if k < o.clients {
                let mine = &own[k];
                let mut i = 0;
                while i < mine.len() {
                    let n = match o.profile {
                        Profile::Packed => o.per_set,
                        _ => 1 + r.below(5) as usize,
                    };
                    let n = n.min(mine.len() - i);
                    let s = fresh(&mut r, k, &mut sets);
                    groups.push((s, mine[i..i + n].to_vec()));
                    i += n;
                }
                r.shuffle(&mut groups);
            }
            clients.push(Client { asn: as_of(k), id: next_hop_of(k), src: src_of(k), groups });
        }
        // announcers by prefix
        let mut start = vec![0u32; universe + 1];
        for c in &clients {
            for (_, ids) in &c.groups {
                for &p in ids {
                    start[p as usize + 1] += 1;
                }
            }
        }
        for i in 0..universe {
            start[i + 1] += start[i];
        }
        let mut fill = start.clone();
        let mut ann = vec![(0u16, 0u32); start[universe] as usize];
        for (k, c) in clients.iter().enumerate() {
            for (s, ids) in &c.groups {
                for &p in ids {
                    ann[fill[p as usize] as usize] = (k as u16, *s);
                    fill[p as usize] += 1;
                }
            }
        }
        let mut single = Vec::new();
        for j in 0..o.changes {
            let k = j % o.clients;
            let s = fresh(&mut r, k, &mut sets);
            single.push((k, (universe + j) as u32, s));
        }
        Work { o, clients, sets, by_octets, universe, start, ann, single }
    }

    pub fn announcers(&self, p: u32) -> &[(u16, u32)] {
        &self.ann[self.start[p as usize] as usize..self.start[p as usize + 1] as usize]
    }

    pub fn blob(&self, k: usize) -> Arc<Vec<u8>> {
        let mut out = Vec::new();
        for (s, ids) in &self.clients[k].groups {
            update(&self.sets[*s as usize].octets, ids, &mut out);
        }
        Arc::new(out)
    }

    /// The set that client c should hold at p when exactly the clients of `up` announce (RFC 4271, 9.1.2.2, over the routes of the others):
    /// shortest path, lowest ORIGIN, (MED says nothing: each client has its own AS), lowest identifier.
    pub fn best(&self, c: usize, p: u32, up: &[bool]) -> Option<u32> {
        self.announcers(p)
            .iter()
            .filter(|(k, _)| *k as usize != c && up[*k as usize])
            .min_by_key(|(k, s)| {
                let t = &self.sets[*s as usize];
                (t.path_len, t.origin, self.clients[*k as usize].id)
            })
            .map(|(_, s)| *s)
    }

    /// How many prefixes client c should hold when exactly the clients of `up` announce.
    pub fn due(&self, c: usize, up: &[bool]) -> usize {
        if self.o.profile != Profile::Overlap {
            return (0..self.o.clients).filter(|&k| k != c && up[k]).count() * self.o.prefixes;
        }
        (0..self.universe as u32)
            .filter(|&p| self.announcers(p).iter().any(|(k, _)| *k as usize != c && up[*k as usize]))
            .count()
    }
}
