//! The seven events, in place on the records.
use super::forms::Table;
use super::{held, known, long, members, put_known, put_long, put_word, word};
use super::{State, NEAR, PENDING, PRESENT, PUBS, SEEN, SUBS};
use crate::engine::Tally;

/// The receivers of a forward as a set, and their number, which a run wants without the set.
pub struct Given {
    pub deliveries: u32,
    pub receivers: u32,
}

/// A forward that is accepted.
#[inline(always)]
fn forward_one(n: &mut State, t: usize, p: usize, m: usize) -> Given {
    let r = &mut n[p & 31];
    put_long(r, PENDING, long(r, PENDING) & !(1 << m));
    put_long(r, SEEN, long(r, SEEN) | 1 << m);
    let mut given = Given { deliveries: 0, receivers: 0 };
    for q in members(known(r, t)) {
        let r = &mut n[q];
        let free = !held(r) >> m & 1;
        put_long(r, PENDING, long(r, PENDING) | free << m);
        given.deliveries += free as u32;
        given.receivers |= (free as u32) << q;
    }
    given
}

/// A state under a run: its records, who is present, and the table.
pub struct Net<'a, T> {
    pub records: &'a mut State,
    pub present: u32,
    pub table: T,
}

impl<T: Table> Net<'_, T> {
    fn here(&self, p: usize) -> bool {
        self.present >> p & 1 == 1
    }

    /// One event: the refusal's number, or 0. First the fields that its kind doesn't use, then its own.
    pub fn step(&mut self, r: &[u8; 16], tally: &mut Tally) -> u8 {
        let (code, p, m) = (r[0], r[1] as usize, r[2] as usize);
        let (a, b, c) = (word(r, 4), word(r, 8), word(r, 12));
        let stray = match code {
            0 => p != 0 || m != 0 || a | b | c != 0,
            1 | 2 => m > 63 || a | b | c != 0,
            3 | 4 => m != 0 || b | c != 0,
            5 => m != 0 || a | b | c != 0,
            6 => m != 0,
            _ => return 6,
        };
        if stray || p > 31 || r[3] != 0 {
            return 7;
        }
        match code {
            0 => 0,
            1 => self.produce(p, m, tally),
            2 => self.forward(p, m, tally),
            3 => self.subscribe(p, a),
            4 => self.unsubscribe(p, a),
            5 => self.leave(p),
            _ => self.join(p, a, b, c),
        }
    }

    fn produce(&mut self, p: usize, m: usize, tally: &mut Tally) -> u8 {
        if !self.here(p) {
            return 8;
        }
        if self.table.origin(m) != p {
            return 10;
        }
        if word(&self.records[p], PUBS) >> self.table.topic(m) & 1 == 0 {
            return 11;
        }
        let all = members(self.present).fold(0, |all, q| all | held(&self.records[q]));
        if all >> m & 1 == 1 {
            return 12;
        }
        let r = &mut self.records[p];
        put_long(r, PENDING, long(r, PENDING) | 1 << m);
        tally.produced += 1;
        0
    }

    /// A forward, or the refusal's number.
    #[inline(always)]
    pub fn give(&mut self, p: usize, m: usize) -> Result<Given, u8> {
        if !self.here(p) {
            return Err(8);
        }
        if long(&self.records[p], PENDING) >> m & 1 == 0 {
            return Err(13);
        }
        Ok(forward_one(self.records, self.table.topic(m), p, m))
    }

    fn forward(&mut self, p: usize, m: usize, tally: &mut Tally) -> u8 {
        match self.give(p, m) {
            Ok(given) => {
                tally.deliveries += u64::from(given.deliveries);
                tally.forwards += 1;
                0
            }
            Err(number) => number,
        }
    }

    /// The neighbours of p come to know that p subscribes to the topics.
    #[inline(always)]
    fn tell(&mut self, near: u32, p: usize, topics: u32) {
        for q in members(near) {
            let r = &mut self.records[q];
            for t in members(topics) {
                put_known(r, t, known(r, t) | 1 << p);
            }
        }
    }

    /// The neighbours of p come to know that p doesn't subscribe to the topics.
    #[inline(always)]
    fn untell(&mut self, near: u32, p: usize, topics: u32) {
        for q in members(near) {
            let r = &mut self.records[q];
            for t in members(topics) {
                put_known(r, t, known(r, t) & !(1 << p));
            }
        }
    }

    fn subscribe(&mut self, p: usize, topics: u32) -> u8 {
        if !self.here(p) {
            return 8;
        }
        self.tell(word(&self.records[p], NEAR), p, topics);
        let r = &mut self.records[p];
        put_word(r, SUBS, word(r, SUBS) | topics);
        0
    }

    fn unsubscribe(&mut self, p: usize, topics: u32) -> u8 {
        if !self.here(p) {
            return 8;
        }
        self.untell(word(&self.records[p], NEAR), p, topics);
        let r = &mut self.records[p];
        put_word(r, SUBS, word(r, SUBS) & !topics);
        0
    }

    fn leave(&mut self, p: usize) -> u8 {
        if !self.here(p) {
            return 8;
        }
        let r = &self.records[p];
        if long(r, PENDING) != 0 {
            return 14;
        }
        let (near, subs) = (word(r, NEAR), word(r, SUBS));
        for q in members(near) {
            let r = &mut self.records[q];
            put_word(r, NEAR, word(r, NEAR) & !(1 << p));
        }
        self.untell(near, p, subs);
        self.records[p] = [0; 160];
        self.present &= !(1 << p);
        0
    }

    fn join(&mut self, p: usize, subs: u32, pubs: u32, near: u32) -> u8 {
        if self.here(p) {
            return 9;
        }
        if near >> p & 1 == 1 {
            return 15;
        }
        if near & !self.present != 0 {
            return 16;
        }
        self.present |= 1 << p;
        let r = &mut self.records[p];
        put_word(r, PRESENT, 1);
        put_word(r, PUBS, pubs);
        put_word(r, SUBS, subs);
        put_word(r, NEAR, near);
        self.link(p, near);
        self.tell(near, p, subs);
        0
    }

    /// The neighbours of p list it, and p comes to know what they subscribe to.
    fn link(&mut self, p: usize, near: u32) {
        for q in members(near) {
            let theirs = &mut self.records[q];
            put_word(theirs, NEAR, word(theirs, NEAR) | 1 << p);
            let subs = word(theirs, SUBS);
            let mine = &mut self.records[p];
            for t in members(subs) {
                put_known(mine, t, known(mine, t) | 1 << q);
            }
        }
    }
}
