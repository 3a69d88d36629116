//! What the phases wait for and count.

use crate::net::{connect_from, IN};
use crate::procs::{usage, Usage};
use crate::report::Report;
use crate::shared::{message, Cond, Shared, St, Stats, ABSENT, ALTERED};
use std::os::fd::AsRawFd;
use std::sync::atomic::Ordering::*;
use std::time::{Duration, Instant};

impl Shared {
    pub fn try_connect(&self, k: usize) {
        let mut c = self.lock(k);
        c.tried_at = self.now();
        let t = self.n.targets[k % self.n.targets.len()];
        if let Ok(s) = connect_from(self.w.clients[k].src, t) {
            self.ep(k).add(s.as_raw_fd(), IN, k as u64);
            c.stream = Some(s);
            c.out_on = false;
            c.rlen = 0;
            c.st = St::OpenSent;
            let w = &self.w.clients[k];
            let my = if w.asn > 65535 { 23456 } else { w.asn as u16 };
            let mut b = vec![4];
            b.extend_from_slice(&my.to_be_bytes());
            b.extend_from_slice(&self.n.hold.to_be_bytes());
            b.extend_from_slice(&w.id.to_be_bytes());
            let mut caps = vec![];
            if self.n.mp {
                caps.extend_from_slice(&[1, 4, 0, 1, 0, 1]);
            }
            caps.extend_from_slice(&[65, 4]);
            caps.extend_from_slice(&w.asn.to_be_bytes());
            b.push(caps.len() as u8 + 2);
            b.extend_from_slice(&[2, caps.len() as u8]);
            b.extend_from_slice(&caps);
            self.send(&mut c, message(1, &b));
        }
    }

    /// Brings up the clients of the list; answers the seconds, or None where it took too long.
    pub fn bring_up(&self, list: &[usize], timeout: f64) -> Option<f64> {
        let start = self.now();
        for &k in list {
            self.lock(k).wanted = true;
        }
        loop {
            let mut all = true;
            for &k in list {
                let (st, tried) = {
                    let c = self.lock(k);
                    (c.st, c.tried_at)
                };
                if st != St::Up {
                    all = false;
                    if st == St::Down && (tried < start || self.now() - tried > 100_000_000) {
                        self.try_connect(k);
                    }
                }
            }
            let t = (self.now() - start) as f64 / 1e9;
            if all {
                return Some(t);
            }
            if t > timeout || !self.alive() {
                return None;
            }
            std::thread::sleep(Duration::from_millis(2));
        }
    }

    pub fn is_up(&self, k: usize) -> bool {
        self.lock(k).st == St::Up
    }
    pub fn last_note(&self, k: usize) -> Option<(u8, u8)> {
        self.lock(k).last_note
    }

    pub fn alive(&self) -> bool {
        self.n.pids.is_empty() || usage(&self.n.pids).alive
    }

    pub fn set_cond(&self, k: usize, cond: Cond) {
        let mut c = self.lock(k);
        if c.cond.is_none() {
            self.pending.fetch_add(1, SeqCst);
        }
        c.cond = Some(cond);
        c.met_at = 0;
        self.check(&mut c);
    }
    pub fn drop_conds(&self) {
        for k in 0..self.cl.len() {
            let mut c = self.lock(k);
            if c.cond.take().is_some() {
                self.pending.fetch_sub(1, SeqCst);
            }
        }
    }
    pub fn met(&self, k: usize) -> Option<u64> {
        let c = self.lock(k);
        (c.met_at != 0).then_some(c.met_at)
    }

    pub fn stats(&self) -> Stats {
        let mut s = Stats::default();
        for k in 0..self.cl.len() {
            s.add(&self.lock(k).stats);
        }
        s
    }

    pub fn usage(&self) -> Usage {
        if self.n.pids.is_empty() {
            Usage::default()
        } else {
            usage(&self.n.pids)
        }
    }

    /// Waits until every condition is met. Ends early where the server died or took too much
    /// memory, where a wanted session was lost, or where nothing was heard for `give_up` seconds
    /// after all was sent.
    pub fn wait_met(&self, timeout: f64, fast: bool) -> Result<(), String> {
        let start = Instant::now();
        let mut look = Instant::now();
        let since = self.now();
        loop {
            if self.pending.load(SeqCst) <= 0 {
                return Ok(());
            }
            std::thread::sleep(Duration::from_micros(if fast { 50 } else { 500 }));
            if look.elapsed() > Duration::from_millis(250) {
                look = Instant::now();
                let u = self.usage();
                if !self.n.pids.is_empty() {
                    if !u.alive {
                        return Err("server ended".into());
                    }
                    if u.rss_kb / 1024 > self.n.max_rss_mb {
                        return Err(format!("memory limit ({} MB)", u.rss_kb / 1024));
                    }
                }
                let mut queued = false;
                for k in 0..self.cl.len() {
                    let c = self.lock(k);
                    queued |= !c.q.is_empty();
                    if c.wanted && c.st == St::Down {
                        return Err(format!("session {} lost, notification {:?}", k, c.last_note));
                    }
                }
                let quiet = self.now() - self.last_update.load(SeqCst).max(since);
                if !queued && quiet as f64 / 1e9 > self.n.give_up {
                    return Err(format!("nothing heard for {} s", self.n.give_up));
                }
            }
            if start.elapsed().as_secs_f64() > timeout {
                return Err("timeout".into());
            }
        }
    }

    /// Waits until no UPDATE came for `quiet` seconds.
    pub fn wait_quiet(&self, quiet: f64, timeout: f64) {
        let start = Instant::now();
        let since = self.now();
        while start.elapsed().as_secs_f64() < timeout {
            let last = self.last_update.load(SeqCst).max(since);
            if (self.now() - last) as f64 / 1e9 > quiet {
                return;
            }
            std::thread::sleep(Duration::from_millis(5));
        }
    }

    pub fn verify(&self, announcing: &[bool], report: &mut Report) {
        let (mut missing, mut extra, mut altered, mut right, mut not_best, mut due) = (0u64, 0u64, 0u64, 0u64, 0u64, 0u64);
        for k in 0..self.cl.len() {
            let c = self.lock(k);
            if c.st != St::Up || self.is_deaf(k) {
                continue;
            }
            for p in 0..self.w.universe as u32 {
                let want = self.w.best(k, p, announcing);
                due += want.is_some() as u64;
                match (want, c.table[p as usize]) {
                    (None, ABSENT) => {}
                    (None, _) => extra += 1,
                    (Some(_), ABSENT) => missing += 1,
                    (Some(_), ALTERED) => altered += 1,
                    (Some(s), v) if v == s + 1 => right += 1,
                    (Some(_), _) => not_best += 1,
                }
            }
            for p in self.w.universe..c.table.len() {
                extra += (c.table[p] != ABSENT) as u64;
            }
        }
        report.num("due", due as f64);
        report.num("right", right as f64);
        report.num("missing", missing as f64);
        report.num("extra", extra as f64);
        report.num("altered", altered as f64);
        report.num("not_best", not_best as f64);
    }

    /// Says that a phase begins, for who measures the server beside this.
    pub fn phase_start(&self, name: &str) -> (Stats, Usage) {
        println!("{name}");
        self.own_cpu.store(usage(&[std::process::id()]).cpu.to_bits(), SeqCst);
        (self.stats(), self.usage())
    }

    pub fn phase_end(&self, r: &mut Report, s0: &Stats, u0: &Usage) {
        let s = self.stats().minus(s0);
        // since the end of the phase before, its check left out
        let own = usage(&[std::process::id()]).cpu;
        r.num("harness_cpu_s", own - f64::from_bits(self.own_cpu.load(SeqCst)));
        let u = self.usage();
        r.num("updates", s.updates as f64);
        r.num("octets", s.octets as f64);
        r.num("announced", s.announced as f64);
        r.num("withdrawn", s.withdrawn as f64);
        if s.with_nlri > 0 {
            r.num("prefixes_per_update", s.announced as f64 / s.with_nlri as f64);
        }
        if s.announced > 0 {
            r.num("octets_per_prefix", s.octets as f64 / s.announced as f64);
        }
        if !self.n.pids.is_empty() {
            r.num("server_cpu_s", u.cpu - u0.cpu);
            r.num("server_peak_mb", u.peak_kb as f64 / 1024.0);
            r.num("server_rss_mb", u.rss_kb as f64 / 1024.0);
        }
    }
}
