//! A state in arrays, and what events, a drain and the image make of it.
use super::word;
use crate::engine::Tally;

pub struct Net {
    pub present: u32,
    pub pubs: [u32; 32],
    pub subs: [u32; 32],
    pub near: [u32; 32],
    pub pending: [u64; 32],
    pub seen: [u64; 32],
    pub known: [u32; 1024],
}

/// The numbers of a set, rising.
pub fn members(mut s: u32) -> impl Iterator<Item = usize> {
    std::iter::from_fn(move || {
        if s == 0 {
            return None;
        }
        let q = s.trailing_zeros() as usize;
        s &= s - 1;
        Some(q)
    })
}

/// Which fields the events 0 to 6 use: peer, message, subs or topics, pubs, neighbours.
const USED: [[bool; 5]; 7] = [
    [false; 5],
    [true, true, false, false, false],
    [true, true, false, false, false],
    [true, false, true, false, false],
    [true, false, true, false, false],
    [true, false, false, false, false],
    [true, false, true, true, true],
];

impl Net {
    pub fn here(&self, p: usize) -> bool {
        self.present >> p & 1 == 1
    }

    /// The receivers of a forward that is accepted, as a set.
    pub fn forward(&mut self, t: usize, p: usize, m: usize) -> u32 {
        self.pending[p] &= !(1 << m);
        self.seen[p] |= 1 << m;
        let mut receivers = 0;
        for q in members(self.known[p * 32 + t]) {
            if (self.pending[q] | self.seen[q]) >> m & 1 == 0 {
                self.pending[q] |= 1 << m;
                receivers |= 1 << q;
            }
        }
        receivers
    }

    fn link(&mut self, p: usize, who: u32) {
        self.near[p] |= who;
        for q in members(who) {
            self.near[q] |= 1 << p;
            for t in members(self.subs[p]) {
                self.known[q * 32 + t] |= 1 << p;
            }
            for t in members(self.subs[q]) {
                self.known[p * 32 + t] |= 1 << q;
            }
        }
    }

    fn unlink(&mut self, p: usize, who: u32) {
        for q in members(who) {
            self.near[q] &= !(1 << p);
            for t in 0..32 {
                self.known[q * 32 + t] &= !(1 << p);
            }
        }
        self.near[p] &= !who;
        for t in 0..32 {
            self.known[p * 32 + t] &= !who;
        }
    }

    fn clear(&mut self, p: usize) {
        self.present &= !(1 << p);
        self.pubs[p] = 0;
        self.subs[p] = 0;
        self.near[p] = 0;
        self.pending[p] = 0;
        self.seen[p] = 0;
        self.known[p * 32..p * 32 + 32].fill(0);
    }

    /// One event: 0 or the refusal, the tally counted.
    pub fn step(&mut self, r: &[u8], topics: &[u8; 64], origins: &[u8; 64], tally: &mut Tally) -> u8 {
        let (code, p, m) = (r[0], r[1] as usize, r[2] as usize);
        if code > 6 {
            return 6;
        }
        let used = USED[code as usize];
        let (a, b, c) = (word(r, 4), word(r, 8), word(r, 12));
        if (if used[0] { p > 31 } else { p != 0 })
            || (if used[1] { m > 63 } else { m != 0 })
            || r[3] != 0
            || (!used[2] && a != 0)
            || (!used[3] && b != 0)
            || (!used[4] && c != 0)
        {
            return 7;
        }
        match code {
            1 => {
                if !self.here(p) {
                    return 8;
                }
                if origins[m] as usize != p {
                    return 10;
                }
                if self.pubs[p] >> topics[m] & 1 == 0 {
                    return 11;
                }
                if members(self.present).any(|q| (self.pending[q] | self.seen[q]) >> m & 1 == 1) {
                    return 12;
                }
                self.pending[p] |= 1 << m;
                tally.produced += 1;
            }
            2 => {
                if !self.here(p) {
                    return 8;
                }
                if self.pending[p] >> m & 1 == 0 {
                    return 13;
                }
                tally.deliveries += u64::from(self.forward(topics[m] as usize, p, m).count_ones());
                tally.forwards += 1;
            }
            3 | 4 => {
                if !self.here(p) {
                    return 8;
                }
                for q in members(self.near[p]) {
                    for t in members(a) {
                        if code == 3 {
                            self.known[q * 32 + t] |= 1 << p;
                        } else {
                            self.known[q * 32 + t] &= !(1 << p);
                        }
                    }
                }
                if code == 3 {
                    self.subs[p] |= a;
                } else {
                    self.subs[p] &= !a;
                }
            }
            5 => {
                if !self.here(p) {
                    return 8;
                }
                if self.pending[p] != 0 {
                    return 14;
                }
                self.unlink(p, self.near[p]);
                self.clear(p);
            }
            6 => {
                if self.here(p) {
                    return 9;
                }
                if c >> p & 1 == 1 {
                    return 15;
                }
                if c & !self.present != 0 {
                    return 16;
                }
                self.clear(p);
                self.present |= 1 << p;
                self.pubs[p] = b;
                self.subs[p] = a;
                self.link(p, c);
            }
            _ => {}
        }
        0
    }

    /// Presence, pubs and subs, and what is seen and pending nowhere.
    pub fn image(self) -> Net {
        let waiting = self.pending.iter().fold(0, |a, b| a | b);
        let mut seen = self.seen;
        for w in seen.iter_mut() {
            *w &= !waiting;
        }
        Net { near: [0; 32], pending: [0; 32], known: [0; 1024], seen, ..self }
    }

    /// Forwards made, rounds finished, and whether nothing is pending.
    pub fn drain(&mut self, topics: &[u8; 64], budget: u32) -> (u32, u32, bool) {
        let (mut made, mut rounds) = (0, 0);
        while self.pending.iter().any(|&w| w != 0) && made < budget {
            let todo = self.pending;
            for p in 0..32 {
                let mut w = todo[p];
                while w != 0 {
                    if made == budget {
                        return (made, rounds, false);
                    }
                    let m = w.trailing_zeros() as usize;
                    w &= w - 1;
                    self.forward(topics[m] as usize, p, m);
                    made += 1;
                }
            }
            rounds += 1;
        }
        (made, rounds, self.pending.iter().all(|&w| w == 0))
    }
}
