//! The phases in which routes change beside a full table: single changes, and a client that flaps.

use crate::octets::{update, withdrawal};
use crate::phases::{note_parts, seconds, Run};
use crate::report::Report;
use crate::shared::Cond;
use std::sync::Arc;
use std::time::{Duration, Instant};

impl Run {
    /// One announcement or withdrawal; answers when the first and the last other client had it.
    fn change(&self, k: usize, message: Vec<u8>, totals: impl Fn(usize) -> usize) -> Option<(f64, f64)> {
        let s = &self.s;
        for c in (0..self.n).filter(|&c| c != k) {
            s.set_cond(c, Cond { total: Some(totals(c)), owner: None });
        }
        let t = s.now();
        s.send(&mut s.lock(k), Arc::new(message));
        if s.wait_met(10.0, true).is_err() {
            s.drop_conds();
            return None;
        }
        let times: Vec<u64> = (0..self.n).filter(|&c| c != k).filter_map(|c| s.met(c)).collect();
        let (first, last) = (times.iter().min().copied().unwrap_or(t), times.iter().max().copied().unwrap_or(t));
        Some((seconds(t, first) * 1e3, seconds(t, last) * 1e3))
    }

    /// One announcement and one withdrawal at a time, beside the full table.
    pub fn single(&self) -> Report {
        let s = &self.s;
        let mut r = Report::new("single");
        let before = s.phase_start("single");
        let base: Vec<usize> = (0..self.n).map(|k| s.lock(k).present).collect();
        let (mut ann, mut first, mut wdr, mut failed) = (Vec::new(), Vec::new(), Vec::new(), 0);
        let started = Instant::now();
        for &(k, p, set) in &s.w.single {
            if started.elapsed().as_secs_f64() > s.n.latency_budget || failed > 2 {
                break;
            }
            let (mut m, mut gone) = (Vec::new(), Vec::new());
            update(&s.w.sets[set as usize].octets, &[p], &mut m);
            withdrawal(&[p], &mut gone);
            match self.change(k, m, |c| base[c] + 1) {
                Some((one, all)) => {
                    first.push(one);
                    ann.push(all);
                }
                None => failed += 1,
            }
            std::thread::sleep(Duration::from_millis(s.n.gap_ms));
            match self.change(k, gone, |c| base[c]) {
                Some((_, all)) => wdr.push(all),
                None => failed += 1,
            }
            std::thread::sleep(Duration::from_millis(s.n.gap_ms));
        }
        r.num("changes", ann.len() as f64);
        r.num("failed", failed as f64);
        note_parts(&mut r, "announce_ms", &mut ann);
        note_parts(&mut r, "announce_first_ms", &mut first);
        note_parts(&mut r, "withdraw_ms", &mut wdr);
        s.wait_quiet(0.5, 20.0);
        self.end(r, before, false)
    }

    /// Client 0 closes its connection, and comes back.
    pub fn flap(&mut self) -> Report {
        let (s, n) = (self.s.clone(), self.n);
        let mut r = Report::new("flap");
        let start = s.phase_start("flap");
        self.announcing[0] = false;
        let less: Vec<usize> = (0..n).map(|k| s.w.due(k, &self.announcing)).collect();
        self.announcing[0] = true;
        let before: Vec<(usize, u32)> = (0..n).map(|k| s.lock(k)).map(|c| (c.present, c.by_owner[0])).collect();
        // where paths are hidden the whole can't be awaited, only that nothing of client 0 is left
        for k in 1..n {
            let total = (before[k].0 == self.dues[k]).then_some(less[k]);
            s.set_cond(k, Cond { total, owner: Some((0, 0)) });
        }
        let t = s.now();
        {
            let mut c = s.lock(0);
            c.wanted = false;
            if let Some(stream) = &c.stream {
                let _ = stream.shutdown(std::net::Shutdown::Both);
            }
            s.drop_session(&mut c);
            c.stats.drops -= 1;
        }
        match s.wait_met(s.n.timeout, false) {
            Ok(()) => r.num("withdrawn_s", seconds(t, self.last_met(1..n).unwrap_or(t))),
            Err(e) => r.text("fault", &e),
        }
        s.drop_conds();
        s.wait_quiet(s.n.quiet, s.n.timeout);
        r.num("withdraw_settled_s", self.settled(t));
        r.num("left_behind", (1..n).map(|k| s.lock(k).by_owner[0] as f64).sum());
        match s.bring_up(&[0], 90.0) {
            None => r.text("fault", &format!("client 0 couldn't come back, notification {:?}", s.last_note(0))),
            Some(x) => {
                r.num("reconnect_s", x);
                self.come_back(&mut r, &before);
            }
        }
        self.end(r, start, true)
    }

    /// Client 0 announces again, until all hold what they held before.
    fn come_back(&self, r: &mut Report, before: &[(usize, u32)]) {
        let (s, n) = (&self.s, self.n);
        let t_up = s.lock(0).up_at;
        for k in 0..n {
            // where the choice is the best one it must come back to what it was
            let owner = (self.fixed && k != 0).then_some((0, before[k].1));
            s.set_cond(k, Cond { total: Some(if self.overlap { before[k].0 } else { self.dues[k] }), owner });
        }
        let t = s.now();
        self.announce(0);
        match s.wait_met(s.n.timeout, false) {
            Ok(()) => {
                r.num("reannounced_s", seconds(t, self.last_met(1..n).unwrap_or(t)));
                r.num("own_table_s", seconds(t_up, s.met(0).unwrap_or(t_up)));
            }
            Err(e) => r.text("fault", &e),
        }
        s.drop_conds();
        s.wait_quiet(s.n.quiet, s.n.timeout);
        r.num("reannounce_settled_s", self.settled(t));
    }
}
