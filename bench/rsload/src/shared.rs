//! The clients and what each has heard, as the threads and the phases share it.

use crate::net::Epoll;
use crate::octets::find;
use crate::work::Work;
use std::collections::{BTreeMap, VecDeque};
use std::net::TcpStream;
use std::sync::atomic::{AtomicBool, AtomicIsize, AtomicU64};
use std::sync::{Arc, Mutex, MutexGuard};
use std::time::Instant;

pub const ABSENT: u32 = 0;
pub const ALTERED: u32 = u32::MAX;

#[derive(Clone, Copy, PartialEq, Debug)]
pub enum St {
    Down,
    OpenSent,
    OpenConfirm,
    Up,
}

#[derive(Clone, Copy, Default, Debug)]
pub struct Stats {
    pub updates: u64,
    pub with_nlri: u64,
    pub octets: u64,
    pub announced: u64,
    pub withdrawn: u64,
    pub eor: u64,
    pub keepalives: u64,
    pub unexpected: u64,
    pub altered: u64,
    pub foreign: u64,
    pub returned: u64,
    pub malformed: u64,
    pub drops: u64,
    pub notes: u64,
}
impl Stats {
    pub fn add(&mut self, s: &Stats) {
        self.updates += s.updates;
        self.with_nlri += s.with_nlri;
        self.octets += s.octets;
        self.announced += s.announced;
        self.withdrawn += s.withdrawn;
        self.eor += s.eor;
        self.keepalives += s.keepalives;
        self.unexpected += s.unexpected;
        self.altered += s.altered;
        self.foreign += s.foreign;
        self.returned += s.returned;
        self.malformed += s.malformed;
        self.drops += s.drops;
        self.notes += s.notes;
    }
    pub fn minus(&self, s: &Stats) -> Stats {
        Stats {
            updates: self.updates - s.updates,
            with_nlri: self.with_nlri - s.with_nlri,
            octets: self.octets - s.octets,
            announced: self.announced - s.announced,
            withdrawn: self.withdrawn - s.withdrawn,
            eor: self.eor - s.eor,
            keepalives: self.keepalives - s.keepalives,
            unexpected: self.unexpected - s.unexpected,
            altered: self.altered - s.altered,
            foreign: self.foreign - s.foreign,
            returned: self.returned - s.returned,
            malformed: self.malformed - s.malformed,
            drops: self.drops - s.drops,
            notes: self.notes - s.notes,
        }
    }
}

#[derive(Clone, Copy)]
pub struct Cond {
    /// None: any number of routes
    pub total: Option<usize>,
    pub owner: Option<(usize, u32)>,
}

pub struct Cl {
    pub k: usize,
    pub stream: Option<TcpStream>,
    pub st: St,
    pub rbuf: Vec<u8>,
    pub rlen: usize,
    pub q: VecDeque<(Arc<Vec<u8>>, usize)>,
    pub out_on: bool,
    pub last_sent: u64,
    pub hold: u64,
    pub up_at: u64,
    pub tried_at: u64,
    pub wanted: bool,
    pub table: Vec<u32>,
    pub present: usize,
    pub by_owner: Vec<u32>,
    pub cond: Option<Cond>,
    pub met_at: u64,
    pub stats: Stats,
    pub last_note: Option<(u8, u8)>,
}

#[derive(Clone)]
pub struct NetOpts {
    pub targets: Vec<(u32, u16)>,
    pub hold: u16,
    pub mp: bool,
    pub threads: usize,
    pub pids: Vec<u32>,
    pub max_rss_mb: u64,
    pub timeout: f64,
    pub quiet: f64,
    pub give_up: f64,
    pub latency_budget: f64,
    pub gap_ms: u64,
    pub phases: String,
}

pub struct Shared {
    pub w: Work,
    pub n: NetOpts,
    pub cl: Vec<Mutex<Cl>>,
    pub ep: Vec<Epoll>,
    t0: Instant,
    pub pending: AtomicIsize,
    pub last_update: AtomicU64,
    pub stop: AtomicBool,
    pub diffs: Mutex<BTreeMap<(u8, u8), u64>>,
    pub blobs: Vec<Mutex<Option<Arc<Vec<u8>>>>>,
    pub own_cpu: AtomicU64,
}

pub fn message(kind: u8, body: &[u8]) -> Arc<Vec<u8>> {
    let mut m = vec![0xff; 16];
    m.extend_from_slice(&((19 + body.len()) as u16).to_be_bytes());
    m.push(kind);
    m.extend_from_slice(body);
    Arc::new(m)
}

impl Shared {
    pub fn new(w: Work, n: NetOpts) -> Arc<Shared> {
        let total = w.clients.len();
        let size = w.universe + w.single.len();
        let owners = w.clients.len();
        let cl = (0..total)
            .map(|k| {
                Mutex::new(Cl {
                    k,
                    stream: None,
                    st: St::Down,
                    rbuf: vec![0; 1 << 18],
                    rlen: 0,
                    q: VecDeque::new(),
                    out_on: false,
                    last_sent: 0,
                    hold: n.hold as u64,
                    up_at: 0,
                    tried_at: 0,
                    wanted: false,
                    table: vec![ABSENT; size],
                    present: 0,
                    by_owner: vec![0; owners],
                    cond: None,
                    met_at: 0,
                    stats: Stats::default(),
                    last_note: None,
                })
            })
            .collect();
        let ep = (0..n.threads).map(|_| Epoll::new().expect("epoll")).collect();
        let blobs = (0..total).map(|_| Mutex::new(None)).collect();
        Arc::new(Shared {
            w,
            n,
            cl,
            ep,
            t0: Instant::now(),
            pending: AtomicIsize::new(0),
            last_update: AtomicU64::new(0),
            stop: AtomicBool::new(false),
            diffs: Mutex::new(BTreeMap::new()),
            blobs,
            own_cpu: AtomicU64::new(0),
        })
    }

    pub fn now(&self) -> u64 {
        self.t0.elapsed().as_nanos() as u64
    }
    pub fn lock(&self, k: usize) -> MutexGuard<'_, Cl> {
        self.cl[k].lock().unwrap()
    }
    pub fn ep(&self, k: usize) -> &Epoll {
        &self.ep[k % self.ep.len()]
    }
    pub fn blob(&self, k: usize) -> Arc<Vec<u8>> {
        let mut b = self.blobs[k].lock().unwrap();
        b.get_or_insert_with(|| self.w.blob(k)).clone()
    }

    pub fn owner(&self, p: u32, v: u32) -> usize {
        if v == ALTERED {
            self.w.announcers(p).first().map(|a| a.0 as usize).unwrap_or(0)
        } else {
            self.w.sets[v as usize - 1].owner as usize
        }
    }

    pub fn set_route(&self, c: &mut Cl, p: u32, v: u32) {
        let old = c.table[p as usize];
        if old == v {
            return;
        }
        if old != ABSENT {
            let o = if (p as usize) < self.w.universe { self.owner(p, old) } else { self.w.single[p as usize - self.w.universe].0 };
            c.by_owner[o] -= 1;
            c.present -= 1;
        }
        if v != ABSENT {
            let o = if (p as usize) < self.w.universe { self.owner(p, v) } else { self.w.single[p as usize - self.w.universe].0 };
            c.by_owner[o] += 1;
            c.present += 1;
        }
        c.table[p as usize] = v;
    }

    pub fn clear(&self, c: &mut Cl) {
        c.table.fill(ABSENT);
        c.present = 0;
        c.by_owner.fill(0);
    }

    /// Was this set announced for p by another client than c?
    pub fn from_other(&self, c: usize, p: u32, s: u32) -> bool {
        if (p as usize) < self.w.universe {
            self.w.announcers(p).iter().any(|&(k, t)| t == s && k as usize != c)
        } else {
            let t = self.w.single[p as usize - self.w.universe];
            t.2 == s && t.0 != c
        }
    }

    pub fn note_diff(&self, p: u32, got: &[u8]) {
        let nh = find(got, 3).map(|x| x.1.to_vec());
        let want = if (p as usize) < self.w.universe {
            let a = self.w.announcers(p);
            a.iter()
                .map(|&(_, s)| &self.w.sets[s as usize].octets)
                .find(|o| find(o, 3).map(|x| x.1.to_vec()) == nh)
                .or_else(|| a.first().map(|&(_, s)| &self.w.sets[s as usize].octets))
        } else {
            Some(&self.w.sets[self.w.single[p as usize - self.w.universe].2 as usize].octets)
        };
        let Some(want) = want else { return };
        let mut d = self.diffs.lock().unwrap();
        for kind in 1..=255u8 {
            match (find(want, kind), find(got, kind)) {
                (None, None) => {}
                (Some(_), None) => *d.entry((kind, b'-')).or_insert(0) += 1,
                (None, Some(_)) => *d.entry((kind, b'+')).or_insert(0) += 1,
                (Some(a), Some(b)) => {
                    if a.1 != b.1 {
                        *d.entry((kind, b'~')).or_insert(0) += 1
                    } else if a.0 != b.0 {
                        *d.entry((kind, b'f')).or_insert(0) += 1
                    }
                }
            }
        }
    }
}
