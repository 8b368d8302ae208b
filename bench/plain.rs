//! The same engine in plain Rust, for comparing speed: states as struct of arrays, events in place. It is written the way one would
//! write it by hand, with the engine's algorithms (the least member of a set first, the subscribers of each topic worked out once),
//! so that a ratio says what the proved form costs. The drain goes pair by pair, as the rules state it.
//! This file reads and writes; what happens to a state is in plain/net.rs.
mod net;

use crate::engine::{Answer, Checked, Drained, Forwarded, Refusal, Tally};
use net::{members, Net};

fn word(b: &[u8], at: usize) -> u32 {
    u32::from_le_bytes(b[at..at + 4].try_into().unwrap())
}

fn long(b: &[u8], at: usize) -> u64 {
    u64::from_le_bytes(b[at..at + 8].try_into().unwrap())
}

/// Reads a state; refused by 20 to 26 and the lowest unsound record.
fn read(b: &[u8]) -> Result<Net, Refusal> {
    let mut heads = [0u32; 32];
    let mut n = Net { present: 0, pubs: [0; 32], subs: [0; 32], near: [0; 32], pending: [0; 32], seen: [0; 32], known: [0; 1024] };
    for p in 0..32 {
        let r = &b[p * 160..p * 160 + 160];
        heads[p] = word(r, 0);
        if heads[p] & 0xff == 1 {
            n.present |= 1 << p;
        }
        n.pubs[p] = word(r, 4);
        n.subs[p] = word(r, 8);
        n.near[p] = word(r, 12);
        n.pending[p] = long(r, 16);
        n.seen[p] = long(r, 24);
        for t in 0..32 {
            n.known[p * 32 + t] = word(r, 32 + 4 * t);
        }
    }
    let mut subscribers = [0u32; 32];
    for q in 0..32 {
        for t in members(n.subs[q]) {
            subscribers[t] |= 1 << q;
        }
    }
    for p in 0..32 {
        if !sound(&n, heads[p], &subscribers, p) {
            return Err(fault(&n, heads[p], &subscribers, p));
        }
    }
    Ok(n)
}

fn sound(n: &Net, head: u32, subscribers: &[u32; 32], p: usize) -> bool {
    let row = &n.known[p * 32..p * 32 + 32];
    if head > 1 {
        return false;
    }
    if head == 0 {
        let sets = n.pubs[p] == 0 && n.subs[p] == 0 && n.near[p] == 0;
        return sets && n.pending[p] == 0 && n.seen[p] == 0 && row.iter().all(|&w| w == 0);
    }
    let near = n.near[p];
    near >> p & 1 == 0
        && near & !n.present == 0
        && members(near).all(|q| n.near[q] >> p & 1 == 1)
        && (0..32).all(|t| row[t] == subscribers[t] & near)
        && n.pending[p] & n.seen[p] == 0
}

/// What is wrong with an unsound record: the lowest rule that it breaks, and the lowest neighbour or topic at fault.
#[cold]
fn fault(n: &Net, head: u32, subscribers: &[u32; 32], p: usize) -> Refusal {
    if head > 1 {
        return (20, 0, p);
    }
    if head == 0 {
        return (21, 0, p);
    }
    let near = n.near[p];
    if near >> p & 1 == 1 {
        return (22, 0, p);
    }
    if let Some(q) = members(near & !n.present).next() {
        return (23, q as u8, p);
    }
    if let Some(q) = members(near).find(|&q| n.near[q] >> p & 1 == 0) {
        return (24, q as u8, p);
    }
    if let Some(t) = (0..32).find(|&t| n.known[p * 32 + t] != subscribers[t] & near) {
        return (25, t as u8, p);
    }
    (26, 0, p)
}

fn write(n: &Net, b: &mut [u8]) {
    for p in 0..32 {
        let r = &mut b[p * 160..p * 160 + 160];
        r[0..4].copy_from_slice(&(n.present >> p & 1).to_le_bytes());
        r[4..8].copy_from_slice(&n.pubs[p].to_le_bytes());
        r[8..12].copy_from_slice(&n.subs[p].to_le_bytes());
        r[12..16].copy_from_slice(&n.near[p].to_le_bytes());
        r[16..24].copy_from_slice(&n.pending[p].to_le_bytes());
        r[24..32].copy_from_slice(&n.seen[p].to_le_bytes());
        for t in 0..32 {
            r[32 + 4 * t..36 + 4 * t].copy_from_slice(&n.known[p * 32 + t].to_le_bytes());
        }
    }
}

/// The topics and origins, or the lowest bad row.
fn table(b: &[u8]) -> Result<([u8; 64], [u8; 64]), usize> {
    let (mut topics, mut origins) = ([0; 64], [0; 64]);
    for m in 0..64 {
        let r = &b[4 * m..4 * m + 4];
        if r[0] > 31 || r[1] > 31 || r[2] != 0 || r[3] != 0 {
            return Err(m);
        }
        topics[m] = r[0];
        origins[m] = r[1];
    }
    Ok((topics, origins))
}

/// What a call tests before its own conditions: 1, 2, 3, 4, 20 to 26.
fn begin(state: &[u8], tab: &[u8], events: usize) -> Result<(Net, [u8; 64], [u8; 64]), Refusal> {
    if state.len() != 5120 {
        return Err((1, 0, 0));
    }
    if tab.len() != 256 {
        return Err((2, 0, 0));
    }
    if events % 16 != 0 {
        return Err((3, 0, 0));
    }
    let (topics, origins) = table(tab).map_err(|m| (4, 0, m))?;
    let n = read(state)?;
    Ok((n, topics, origins))
}

pub fn run(state: &mut [u8], tab: &[u8], events: &[u8], tally: &mut Tally) -> Answer {
    let (mut n, topics, origins) = match begin(state, tab, events.len()) {
        Ok(x) => x,
        Err(refusal) => return Answer::refused(refusal),
    };
    *tally = Tally::default();
    let mut answer = Answer { number: 0, detail: 0, place: 0, accepted: events.len() / 16 };
    for (place, r) in events.chunks_exact(16).enumerate() {
        let number = n.step(r, &topics, &origins, tally);
        if number != 0 {
            answer = Answer { number, detail: 0, place, accepted: place };
            break;
        }
    }
    write(&n, state);
    answer
}

pub fn forward(state: &mut [u8], tab: &[u8], peer: u8, message: u8) -> Forwarded {
    let (mut n, topics, _) = match begin(state, tab, 0) {
        Ok(x) => x,
        Err(refusal) => return Forwarded::refused(refusal),
    };
    let (p, m) = (peer as usize, message as usize);
    if p > 31 || m > 63 {
        return Forwarded::refused((7, 0, 0));
    }
    if !n.here(p) {
        return Forwarded::refused((8, 0, 0));
    }
    if n.pending[p] >> m & 1 == 0 {
        return Forwarded::refused((13, 0, 0));
    }
    let receivers = n.forward(topics[m] as usize, p, m);
    write(&n, state);
    Forwarded { number: 0, detail: 0, place: 0, deliveries: receivers.count_ones(), receivers }
}

pub fn drain(state: &mut [u8], tab: &[u8], budget: u32) -> Drained {
    let (mut n, topics, _) = match begin(state, tab, 0) {
        Ok(x) => x,
        Err(refusal) => return Drained::refused(refusal),
    };
    let (forwards, rounds, quiet) = n.drain(&topics, budget);
    write(&n, state);
    Drained { number: 0, detail: 0, place: 0, forwards, rounds, quiet: u8::from(quiet) }
}

/// Refused by 1 or 20 to 26.
fn open(state: &[u8]) -> Result<Net, Refusal> {
    if state.len() != 5120 {
        return Err((1, 0, 0));
    }
    read(state)
}

pub fn copy(from: &[u8], to: &mut [u8]) -> Checked {
    Checked::of(copied(from, to))
}

fn copied(from: &[u8], to: &mut [u8]) -> Result<(), Refusal> {
    let n = open(from)?;
    if to.len() != 5120 {
        return Err((1, 0, 0));
    }
    write(&n, to);
    Ok(())
}

pub fn image(from: &[u8], to: &mut [u8]) -> Checked {
    Checked::of(imaged(from, to))
}

fn imaged(from: &[u8], to: &mut [u8]) -> Result<(), Refusal> {
    let n = open(from)?;
    if to.len() != 5120 {
        return Err((18, 0, 0));
    }
    write(&n.image(), to);
    Ok(())
}
