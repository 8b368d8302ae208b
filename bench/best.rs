//! A faster engine in plain Rust, to see how far the proved one is from it. Where plain.rs reads a state into arrays and writes it back,
//! this one works in place on the 32 records as they lie in the caller's buffer. Rows are tested without an early exit, so that the
//! compiler compares them by vectors. It is timed in two forms, without shortcuts and with them; best/forms.rs says which they are.
//! The events are in best/events.rs, the drain is in best/drain.rs.
//! What both forms call is inlined by order, as the compiler does it of itself where one form alone is the caller.
mod drain;
mod events;
mod forms;

use crate::engine::{Answer, Checked, Drained, Engine, Forwarded, Refusal, Tally};
use events::{Given, Net};
pub use forms::{Best, Shortcuts};
use forms::{Form, Rows};

/// A peer record, and where its fields begin.
type Record = [u8; 160];
const PRESENT: usize = 0;
const PUBS: usize = 4;
const SUBS: usize = 8;
const NEAR: usize = 12;
const PENDING: usize = 16;
const SEEN: usize = 24;
const KNOWN: usize = 32;

type State = [Record; 32];

fn word(r: &[u8], at: usize) -> u32 {
    u32::from_le_bytes(r[at..at + 4].try_into().unwrap())
}

fn long(r: &[u8], at: usize) -> u64 {
    u64::from_le_bytes(r[at..at + 8].try_into().unwrap())
}

fn put_word(r: &mut Record, at: usize, w: u32) {
    r[at..at + 4].copy_from_slice(&w.to_le_bytes());
}

fn put_long(r: &mut Record, at: usize, w: u64) {
    r[at..at + 8].copy_from_slice(&w.to_le_bytes());
}

fn known(r: &Record, t: usize) -> u32 {
    word(r, KNOWN + 4 * (t & 31))
}

fn put_known(r: &mut Record, t: usize, w: u32) {
    put_word(r, KNOWN + 4 * (t & 31), w);
}

/// The messages that a peer has, pending or seen.
fn held(r: &Record) -> u64 {
    long(r, PENDING) | long(r, SEEN)
}

/// The numbers of a set, rising.
fn members(s: u32) -> impl Iterator<Item = usize> {
    let mut left = u64::from(s);
    std::iter::from_fn(move || {
        if left == 0 {
            return None;
        }
        let q = left.trailing_zeros() & 31;
        left &= left - 1;
        Some(q as usize)
    })
}

/// The buffer as records; refused by 1.
fn state(b: &[u8]) -> Result<&State, Refusal> {
    match b.as_chunks() {
        (records, []) => records.try_into().map_err(|_| (1, 0, 0)),
        _ => Err((1, 0, 0)),
    }
}

fn state_mut(b: &mut [u8]) -> Result<&mut State, Refusal> {
    match b.as_chunks_mut() {
        (records, []) => records.try_into().map_err(|_| (1, 0, 0)),
        _ => Err((1, 0, 0)),
    }
}

/// The table as rows; refused by 2.
fn rows(b: &[u8]) -> Result<&Rows, Refusal> {
    match b.as_chunks() {
        (rows, []) => rows.try_into().map_err(|_| (2, 0, 0)),
        _ => Err((2, 0, 0)),
    }
}

/// Is each row's topic and origin below 32, and the rest zero? Refused by 4 and the lowest bad row. All rows are tested together, and
/// singly only where one is bad.
#[inline(always)]
fn check_rows(rows: &Rows) -> Result<(), Refusal> {
    let bad = |r: &[u8; 4]| u32::from_le_bytes(*r) & 0xffff_e0e0;
    if rows.iter().fold(0, |all, r| all | bad(r)) == 0 {
        return Ok(());
    }
    let place = rows.iter().position(|r| bad(r) != 0);
    Err((4, 0, place.unwrap_or(0)))
}

#[inline(always)]
fn presence(n: &State) -> u32 {
    n.iter().enumerate().fold(0, |s, (p, r)| s | u32::from(r[PRESENT] == 1) << p)
}

/// The peers that subscribe to each topic.
#[inline(always)]
fn subscribers(n: &State) -> [u32; 32] {
    let mut of = [0; 32];
    for (q, r) in n.iter().enumerate() {
        for t in members(word(r, SUBS)) {
            of[t] |= 1 << q;
        }
    }
    of
}

/// Are the known subscribers just the neighbours that subscribe? Without an early exit.
fn row_known(r: &Record, subscribers: &[u32; 32]) -> bool {
    let near = word(r, NEAR);
    let (row, _) = r[KNOWN..].as_chunks::<4>();
    row.iter().zip(subscribers).fold(0, |all, (w, s)| all | (u32::from_le_bytes(*w) ^ (s & near))) == 0
}

/// Is the record of a present peer sound?
#[inline(always)]
fn fits(n: &State, present: u32, subscribers: &[u32; 32], p: usize) -> bool {
    let r = &n[p];
    let near = word(r, NEAR);
    near >> p & 1 == 0
        && near & !present == 0
        && members(near).all(|q| word(&n[q], NEAR) >> p & 1 == 1)
        && row_known(r, subscribers)
        && long(r, PENDING) & long(r, SEEN) == 0
}

/// The present peers; refused by 20 to 26 and the lowest unsound record.
fn check<F: Form>(n: &State) -> Result<u32, Refusal> {
    let present = presence(n);
    let subscribers = subscribers(n);
    for (p, r) in n.iter().enumerate() {
        let sound = match word(r, PRESENT) {
            0 => F::absent(r),
            1 => fits(n, present, &subscribers, p),
            _ => false,
        };
        if !sound {
            return Err(fault(n, present, &subscribers, p));
        }
    }
    Ok(present)
}

/// What is wrong with an unsound record: the lowest rule that it breaks, and the lowest neighbour or topic at fault.
#[cold]
fn fault(n: &State, present: u32, subscribers: &[u32; 32], p: usize) -> Refusal {
    let r = &n[p];
    match word(r, PRESENT) {
        0 => return (21, 0, p),
        1 => (),
        _ => return (20, 0, p),
    }
    let near = word(r, NEAR);
    if near >> p & 1 == 1 {
        return (22, 0, p);
    }
    if near & !present != 0 {
        return (23, (near & !present).trailing_zeros() as u8, p);
    }
    if let Some(q) = members(near).find(|&q| word(&n[q], NEAR) >> p & 1 == 0) {
        return (24, q as u8, p);
    }
    match (0..32).find(|&t| known(r, t) != subscribers[t] & near) {
        Some(t) => (25, t as u8, p),
        None => (26, 0, p),
    }
}

fn begin<'a, F: Form>(b: &'a mut [u8], table: &'a [u8], events: usize) -> Result<Net<'a, F::Table<'a>>, Refusal> {
    let records = state_mut(b)?;
    let rows = rows(table)?;
    if events % 16 != 0 {
        return Err((3, 0, 0));
    }
    check_rows(rows)?;
    let present = check::<F>(records)?;
    Ok(Net { records, present, table: F::table(rows) })
}

pub const fn engine<F: Form>() -> Engine {
    Engine { run: run::<F>, forward: forward::<F>, drain: drain::<F>, copy: copy::<F>, image: image::<F> }
}

fn run<F: Form>(b: &mut [u8], table: &[u8], events: &[u8], tally: &mut Tally) -> Answer {
    let mut net = match begin::<F>(b, table, events.len()) {
        Ok(net) => net,
        Err(refusal) => return Answer::refused(refusal),
    };
    *tally = Tally::default();
    let (events, _) = events.as_chunks();
    for (place, r) in events.iter().enumerate() {
        let number = net.step(r, tally);
        if number != 0 {
            return Answer { number, detail: 0, place, accepted: place };
        }
    }
    Answer { number: 0, detail: 0, place: 0, accepted: events.len() }
}

fn forward<F: Form>(b: &mut [u8], table: &[u8], peer: u8, message: u8) -> Forwarded {
    let mut net = match begin::<F>(b, table, 0) {
        Ok(net) => net,
        Err(refusal) => return Forwarded::refused(refusal),
    };
    if peer > 31 || message > 63 {
        return Forwarded::refused((7, 0, 0));
    }
    match net.give(peer as usize, message as usize) {
        Ok(Given { deliveries, receivers }) => Forwarded { number: 0, detail: 0, place: 0, deliveries, receivers },
        Err(number) => Forwarded::refused((number, 0, 0)),
    }
}

fn drain<F: Form>(b: &mut [u8], table: &[u8], budget: u32) -> Drained {
    match begin::<F>(b, table, 0) {
        Ok(net) => drain::drain::<F>(net.records, &net.table, budget),
        Err(refusal) => Drained::refused(refusal),
    }
}

fn copy<F: Form>(from: &[u8], to: &mut [u8]) -> Checked {
    Checked::of(copied::<F>(from, to))
}

fn copied<F: Form>(from: &[u8], to: &mut [u8]) -> Result<(), Refusal> {
    let n = state(from)?;
    check::<F>(n)?;
    *state_mut(to)? = *n;
    Ok(())
}

fn image<F: Form>(from: &[u8], to: &mut [u8]) -> Checked {
    Checked::of(imaged::<F>(from, to))
}

fn imaged<F: Form>(from: &[u8], to: &mut [u8]) -> Result<(), Refusal> {
    let n = state(from)?;
    check::<F>(n)?;
    let image = state_mut(to).map_err(|_| (18, 0, 0))?;
    write_image(n, image);
    Ok(())
}

/// Presence, pubs and subs, and what is seen and pending nowhere.
#[inline(always)]
fn write_image(n: &State, image: &mut State) {
    let waiting = n.iter().fold(0, |all, r| all | long(r, PENDING));
    for (i, r) in image.iter_mut().zip(n) {
        *i = [0; 160];
        i[..NEAR].copy_from_slice(&r[..NEAR]);
        put_long(i, SEEN, long(r, SEEN) & !waiting);
    }
}
