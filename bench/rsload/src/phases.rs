//! The phases of a run: sessions, the start, changes (`changes`), late clients; and what the whole took.

use crate::procs::{usage, Usage};
use crate::report::Report;
use crate::shared::{Cond, Shared, Stats};
use crate::work::Profile;
use std::sync::atomic::Ordering::*;
use std::sync::Arc;

/// What one phase leaves to the next.
pub struct Run {
    pub s: Arc<Shared>,
    /// how many clients announce
    pub n: usize,
    pub overlap: bool,
    pub announcing: Vec<bool>,
    /// how many routes each of them is due
    pub dues: Vec<usize>,
    /// the choice was the best one everywhere
    pub fixed: bool,
    /// nothing more can be measured
    pub fatal: bool,
}

pub fn seconds(from: u64, to: u64) -> f64 {
    to.saturating_sub(from) as f64 / 1e9
}

/// Notes the middle, the 99th of a hundred and the greatest.
pub fn note_parts(r: &mut Report, name: &str, v: &mut [f64]) {
    v.sort_by(|a, b| a.partial_cmp(b).unwrap());
    if !v.is_empty() {
        r.num(&format!("{name}_p50"), v[v.len() / 2]);
        r.num(&format!("{name}_p99"), v[(v.len() * 99 / 100).min(v.len() - 1)]);
        r.num(&format!("{name}_max"), v[v.len() - 1]);
    }
}

impl Run {
    pub fn last_met(&self, among: std::ops::Range<usize>) -> Option<u64> {
        among.filter_map(|k| self.s.met(k)).max()
    }

    pub fn lost(&self) -> bool {
        !self.s.alive() || (0..self.n).any(|k| !self.s.is_up(k))
    }

    pub fn settled(&self, from: u64) -> f64 {
        seconds(from, self.s.last_update.load(SeqCst).max(from))
    }

    pub fn announce(&self, k: usize) {
        let b = self.s.blob(k);
        let mut c = self.s.lock(k);
        if !b.is_empty() {
            c.q.push_back((b, 0));
        }
        self.s.interest(&mut c);
    }

    pub fn end(&self, mut r: Report, before: (Stats, Usage), verified: bool) -> Report {
        self.s.phase_end(&mut r, &before.0, &before.1);
        if verified {
            self.s.verify(&self.announcing, &mut r);
        }
        r
    }

    /// All clients come up, the deaf ones too. Answers whether they did.
    fn sessions(&self) -> (Report, bool) {
        let (s, n) = (&self.s, self.n);
        let mut r = Report::new("sessions");
        let u0 = s.usage();
        let list: Vec<usize> = (0..n).chain(n + s.w.o.late..s.w.clients.len()).collect();
        let up = s.bring_up(&list, 60.0);
        match up {
            Some(t) => r.num("up_s", t),
            None => {
                let down: Vec<usize> = list.iter().copied().filter(|&k| !s.is_up(k)).collect();
                let first = down.first().copied().unwrap_or(0);
                r.text("fault", &format!("{} of {} sessions didn't come up; client {first} heard notification {:?}", down.len(), list.len(), s.last_note(first)));
            }
        }
        if !s.n.pids.is_empty() {
            r.num("server_cpu_s", s.usage().cpu - u0.cpu);
            r.num("server_peak_mb", s.usage().peak_kb as f64 / 1024.0);
        }
        (r, up.is_some())
    }

    /// All announce at once, until each holds exactly its table.
    fn initial(&mut self) -> Report {
        let (s, n) = (self.s.clone(), self.n);
        let mut r = Report::new("initial");
        let before = s.phase_start("initial");
        self.dues = (0..n).map(|k| s.w.due(k, &self.announcing)).collect();
        for k in 0..n {
            s.set_cond(k, Cond { total: Some(self.dues[k]), owner: None });
        }
        let t = s.now();
        (0..n).for_each(|k| self.announce(k));
        let res = s.wait_met(s.n.timeout, false);
        let ok = res.is_ok();
        match res {
            Ok(()) => {
                r.num("complete_s", seconds(t, self.last_met(0..n).unwrap_or_else(|| s.now())));
                r.num("first_client_s", seconds(t, (0..n).filter_map(|k| s.met(k)).min().unwrap_or(t)));
            }
            Err(e) => r.text("fault", &e),
        }
        s.drop_conds();
        s.wait_quiet(s.n.quiet, if ok { s.n.timeout } else { 5.0 });
        r.num("settled_s", self.settled(t));
        let r = self.end(r, before, true);
        self.fixed = r.get("not_best") == Some(0.0);
        // a run whose first phase failed goes on only where hidden paths are the likely cause
        let hidden = self.overlap && s.alive() && seconds(s.last_update.load(SeqCst), s.now()) > s.n.quiet;
        self.fatal = !(ok || hidden) || self.lost();
        r
    }

    /// Clients without routes come up when the table is full.
    fn late(&self) -> Report {
        let (s, n) = (&self.s, self.n);
        let mut r = Report::new("late");
        let before = s.phase_start("late");
        let late: Vec<usize> = (n..n + s.w.o.late).collect();
        for &k in &late {
            s.set_cond(k, Cond { total: Some(s.w.due(k, &self.announcing)), owner: None });
        }
        let t = s.now();
        match s.bring_up(&late, 60.0) {
            None => r.text("fault", &format!("late client didn't come up, notification {:?}", s.last_note(n))),
            Some(x) => {
                r.num("up_s", x);
                match s.wait_met(s.n.timeout, false) {
                    Ok(()) => {
                        let m = self.last_met(n..n + s.w.o.late).unwrap_or(t);
                        r.num("full_s", seconds(late.iter().map(|&k| s.lock(k).up_at).min().unwrap_or(t), m));
                        r.num("full_from_connect_s", seconds(t, m));
                    }
                    Err(e) => r.text("fault", &e),
                }
            }
        }
        s.drop_conds();
        s.wait_quiet(s.n.quiet, s.n.timeout);
        self.end(r, before, true)
    }

    fn whole(&self, own0: &Usage) -> Report {
        let s = &self.s;
        println!("whole");
        let mut r = Report::new("whole");
        let all = s.stats();
        for (name, count) in [
            ("drops", all.drops),
            ("notifications", all.notes),
            ("unexpected", all.unexpected),
            ("malformed", all.malformed),
            ("altered_prefixes", all.altered),
            ("foreign_prefixes", all.foreign),
            ("own_returned", all.returned),
            ("end_of_rib", all.eor),
            ("keepalives", all.keepalives),
        ] {
            r.num(name, count as f64);
        }
        let d = s.diffs.lock().unwrap();
        if !d.is_empty() {
            let how = |how: u8| match how {
                b'-' => "missing",
                b'+' => "added",
                b'~' => "changed",
                _ => "other flags",
            };
            let t: Vec<String> = d.iter().map(|((k, h), n)| format!("type {k} {}: {n}", how(*h))).collect();
            r.text("attribute_differences", &t.join(", "));
        }
        if !s.n.pids.is_empty() {
            let u = s.usage();
            r.num("server_cpu_s", u.cpu);
            r.num("server_peak_mb", u.peak_kb as f64 / 1024.0);
            r.num("server_processes", u.processes as f64);
        }
        let own = usage(&[std::process::id()]);
        r.num("harness_cpu_s", own.cpu - own0.cpu);
        r.num("harness_peak_mb", own.peak_kb as f64 / 1024.0);
        r
    }
}

/// Plays all phases that are asked for.
pub fn run(s: Arc<Shared>) -> Vec<Report> {
    let n = s.w.o.clients;
    let threads = s.start();
    let announcing = (0..s.w.clients.len()).map(|k| k < n).collect();
    let overlap = s.w.o.profile == Profile::Overlap;
    (0..n).for_each(|k| drop(s.blob(k)));
    let own = usage(&[std::process::id()]);
    let mut run = Run { s: s.clone(), n, overlap, announcing, dues: Vec::new(), fixed: false, fatal: true };
    let (report, up) = run.sessions();
    let mut out = vec![report];
    if up {
        s.wait_quiet(0.3, 5.0);
        out.push(run.initial());
        let asked = |phase: char| s.n.phases.contains(phase);
        if asked('b') && !run.fatal && !s.w.single.is_empty() {
            out.push(run.single());
        }
        if asked('c') && !run.fatal && n > 1 {
            out.push(run.flap());
        }
        if asked('d') && !run.fatal && !run.lost() && s.w.o.late > 0 {
            out.push(run.late());
        }
        out.push(run.whole(&own));
    }
    s.stop.store(true, Relaxed);
    for t in threads {
        let _ = t.join();
    }
    out
}
