//! A client's session: what it hears and sends, and the threads that serve the sockets.

use crate::net::{Event, IN, OUT};
use crate::shared::{message, Cl, Shared, St, ABSENT, ALTERED};
use crate::numbering::id_of;
use crate::octets::{canonical, find};
use std::io::{Read, Write};
use std::os::fd::AsRawFd;
use std::sync::atomic::Ordering::*;
use std::sync::Arc;
use std::time::{Duration, Instant};

impl Shared {
    pub fn prefixes(field: &[u8], mut each: impl FnMut(u32, u8)) -> bool {
        let mut i = 0;
        while i < field.len() {
            let len = field[i];
            let n = (len as usize + 7) / 8;
            if len > 32 || i + 1 + n > field.len() {
                return false;
            }
            let mut b = [0u8; 4];
            b[..n].copy_from_slice(&field[i + 1..i + 1 + n]);
            each(u32::from_be_bytes(b), len);
            i += 1 + n;
        }
        true
    }

    pub fn heard_update(&self, c: &mut Cl, body: &[u8], scratch: &mut Vec<u8>) {
        c.stats.updates += 1;
        c.stats.octets += body.len() as u64 + 19;
        if body.len() < 4 {
            c.stats.malformed += 1;
            return;
        }
        let wl = u16::from_be_bytes([body[0], body[1]]) as usize;
        if body.len() < 4 + wl {
            c.stats.malformed += 1;
            return;
        }
        let al = u16::from_be_bytes([body[2 + wl], body[3 + wl]]) as usize;
        if body.len() < 4 + wl + al {
            c.stats.malformed += 1;
            return;
        }
        let (wd, at, nl) = (&body[2..2 + wl], &body[4 + wl..4 + wl + al], &body[4 + wl + al..]);
        if wl == 0 && al == 0 && nl.is_empty() {
            c.stats.eor += 1;
            return;
        }
        let size = c.table.len() as u32;
        let k = c.k;
        let ok = Self::prefixes(wd, |b, l| {
            c.stats.withdrawn += 1;
            match id_of(b, l) {
                Some(p) if p < size => self.set_route(c, p, ABSENT),
                _ => c.stats.unexpected += 1,
            }
        });
        if !ok {
            c.stats.malformed += 1;
        }
        if nl.is_empty() {
            if find(at, 14).is_some() || find(at, 15).is_some() {
                c.stats.malformed += 1;
            }
            return;
        }
        c.stats.with_nlri += 1;
        let set = match self.w.by_octets.get(at) {
            Some(s) => Some(*s),
            None => match canonical(at, scratch) {
                None => {
                    c.stats.malformed += 1;
                    None
                }
                Some(()) => self.w.by_octets.get(scratch.as_slice()).copied(),
            },
        };
        let mut first = true;
        let ok = Self::prefixes(nl, |b, l| {
            c.stats.announced += 1;
            match id_of(b, l) {
                Some(p) if p < size => match set {
                    Some(s) if self.from_other(k, p, s) => self.set_route(c, p, s + 1),
                    // the client's own route came back: a router drops it for its own AS in the path
                    Some(s) if self.w.sets[s as usize].owner as usize == k => {
                        c.stats.returned += 1;
                        self.set_route(c, p, ABSENT)
                    }
                    Some(_) => {
                        c.stats.foreign += 1;
                        self.set_route(c, p, ALTERED)
                    }
                    None => {
                        c.stats.altered += 1;
                        if first {
                            first = false;
                            self.note_diff(p, at);
                        }
                        self.set_route(c, p, ALTERED)
                    }
                },
                _ => c.stats.unexpected += 1,
            }
        });
        if !ok {
            c.stats.malformed += 1;
        }
    }

    pub fn check(&self, c: &mut Cl) {
        if let Some(k) = c.cond {
            if k.total.map_or(true, |t| c.present == t) && k.owner.map_or(true, |(o, n)| c.by_owner[o] == n) {
                c.cond = None;
                c.met_at = self.now();
                self.pending.fetch_sub(1, SeqCst);
            }
        }
    }

    pub fn drop_session(&self, c: &mut Cl) {
        if let Some(s) = c.stream.take() {
            self.ep(c.k).del(s.as_raw_fd());
        }
        if c.st == St::Up {
            c.stats.drops += 1;
        }
        c.st = St::Down;
        c.q.clear();
        c.rlen = 0;
        c.out_on = false;
        self.clear(c);
    }

    pub fn flush(&self, c: &mut Cl, limit: usize) {
        let mut done = 0;
        let mut failed = false;
        while let Some((b, pos)) = c.q.front_mut() {
            if done >= limit {
                break;
            }
            let end = b.len().min(*pos + (1 << 16));
            match c.stream.as_mut().map(|s| s.write(&b[*pos..end])) {
                Some(Ok(n)) if n > 0 => {
                    *pos += n;
                    done += n;
                    if *pos == b.len() {
                        c.q.pop_front();
                    }
                }
                Some(Err(e)) if e.kind() == std::io::ErrorKind::WouldBlock => break,
                Some(Err(e)) if e.kind() == std::io::ErrorKind::Interrupted => {}
                _ => {
                    failed = true;
                    break;
                }
            }
        }
        if done > 0 {
            c.last_sent = self.now();
        }
        if failed {
            // what the peer still said is read first; the read side then sees the end
            c.q.clear();
        }
        self.interest(c);
    }

    pub fn interest(&self, c: &mut Cl) {
        let want = !c.q.is_empty();
        if want != c.out_on {
            if let Some(s) = &c.stream {
                self.ep(c.k).modify(s.as_raw_fd(), if want { IN | OUT } else { IN }, c.k as u64);
                c.out_on = want;
            }
        }
    }

    pub fn send(&self, c: &mut Cl, b: Arc<Vec<u8>>) {
        c.q.push_back((b, 0));
        self.flush(c, 1 << 16);
    }

    /// Whether the client comes up with the others and then reads nothing.
    pub fn is_deaf(&self, k: usize) -> bool {
        k >= self.w.o.clients + self.w.o.late
    }

    pub fn readable(&self, c: &mut Cl, scratch: &mut Vec<u8>) {
        let got = {
            let Some(s) = c.stream.as_mut() else { return };
            let at = c.rlen;
            s.read(&mut c.rbuf[at..])
        };
        match got {
            Ok(0) => return self.drop_session(c),
            Ok(n) => c.rlen += n,
            Err(e) if e.kind() == std::io::ErrorKind::WouldBlock || e.kind() == std::io::ErrorKind::Interrupted => return,
            Err(_) => return self.drop_session(c),
        }
        let buf = std::mem::take(&mut c.rbuf);
        let mut i = 0;
        let mut lost = false;
        let before = c.stats.updates;
        while c.rlen - i >= 19 {
            let n = u16::from_be_bytes([buf[i + 16], buf[i + 17]]) as usize;
            if n < 19 || n > 4096 {
                c.stats.malformed += 1;
                lost = true;
                break;
            }
            if c.rlen - i < n {
                break;
            }
            let body = &buf[i + 19..i + n];
            match buf[i + 18] {
                1 => {
                    if c.st == St::OpenSent && body.len() >= 10 {
                        let h = u16::from_be_bytes([body[3], body[4]]);
                        c.hold = h.min(self.n.hold) as u64;
                        c.st = St::OpenConfirm;
                        c.q.push_back((message(4, &[]), 0));
                        self.flush(c, 1 << 16);
                    }
                }
                2 => self.heard_update(c, body, scratch),
                3 => {
                    c.stats.notes += 1;
                    c.last_note = Some((body.first().copied().unwrap_or(0), body.get(1).copied().unwrap_or(0)));
                    lost = true;
                    break;
                }
                4 => {
                    c.stats.keepalives += 1;
                    if c.st == St::OpenConfirm {
                        c.st = St::Up;
                        c.up_at = self.now();
                        if self.is_deaf(c.k) {
                            if let Some(s) = &c.stream {
                                self.ep(c.k).del(s.as_raw_fd());
                            }
                        }
                    }
                }
                _ => c.stats.malformed += 1,
            }
            i += n;
        }
        c.rbuf = buf;
        c.rbuf.copy_within(i..c.rlen, 0);
        c.rlen -= i;
        if c.stats.updates != before {
            self.last_update.fetch_max(self.now(), SeqCst);
        }
        if lost {
            return self.drop_session(c);
        }
        self.check(c);
    }

    pub fn worker(self: Arc<Self>, t: usize) {
        let mut ev = [Event { events: 0, data: 0 }; 64];
        let mut scratch = Vec::new();
        let mut tick = Instant::now();
        while !self.stop.load(Relaxed) {
            let n = self.ep[t].wait(&mut ev, 100);
            for e in ev.iter().take(n) {
                let (bits, k) = (e.events, e.data as usize);
                let mut c = self.lock(k);
                if bits & !OUT != 0 {
                    self.readable(&mut c, &mut scratch);
                }
                if bits & OUT != 0 {
                    self.flush(&mut c, 1 << 18);
                }
            }
            if tick.elapsed() > Duration::from_millis(500) {
                tick = Instant::now();
                for k in (t..self.cl.len()).step_by(self.ep.len()) {
                    let mut c = self.lock(k);
                    if c.st == St::Up && c.hold > 0 && c.q.is_empty() && self.now() - c.last_sent > c.hold * 1_000_000_000 / 3 {
                        self.send(&mut c, message(4, &[]));
                    }
                }
            }
        }
    }

    pub fn start(self: &Arc<Self>) -> Vec<std::thread::JoinHandle<()>> {
        (0..self.ep.len())
            .map(|t| {
                let s = self.clone();
                std::thread::spawn(move || s.worker(t))
            })
            .collect()
    }

}
