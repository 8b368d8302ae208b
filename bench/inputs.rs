//! States, tables and event lists for the tasks.
use crate::engine::Tally;
use crate::plain;

pub fn record(code: u8, peer: u8, message: u8, a: u32, b: u32, c: u32) -> [u8; 16] {
    let mut r = [0; 16];
    r[0] = code;
    r[1] = peer;
    r[2] = message;
    r[4..8].copy_from_slice(&a.to_le_bytes());
    r[8..12].copy_from_slice(&b.to_le_bytes());
    r[12..16].copy_from_slice(&c.to_le_bytes());
    r
}

/// A table in which message m has topic m % `topics` and origin 0.
pub fn table(topics: u8) -> Vec<u8> {
    (0..64).flat_map(|m| [m % topics, 0, 0, 0]).collect()
}

/// Three desks in a line, as most installations have.
pub fn three() -> Vec<u8> {
    [record(6, 0, 0, 0, 1, 0), record(6, 1, 0, 1, 0, 1), record(6, 2, 0, 1, 0, 2)].concat()
}

#[derive(Clone, Copy)]
pub enum Links {
    /// Each desk with the one before it.
    Line,
    /// Each desk with all before it.
    Dense,
}

/// `size` desks that all publish and subscribe to topics 0 to `topics` - 1.
pub fn desks(size: u8, links: Links, topics: u8) -> Vec<u8> {
    let all = u32::MAX >> (32 - topics);
    let near = |p: u8| match links {
        Links::Line => (1u32 << p) >> 1,
        Links::Dense => (1 << p) - 1,
    };
    (0..size).flat_map(|p| record(6, p, 0, all, all, near(p))).collect()
}

/// Desk 0 produces messages 0 to `count` - 1.
pub fn produced(count: u8) -> Vec<u8> {
    (0..count).flat_map(|m| record(1, 0, m, 0, 0, 0)).collect()
}

/// The state after an event list on a blank network.
pub fn built(table: &[u8], events: &[u8]) -> Vec<u8> {
    let mut state = vec![0; 5120];
    let answer = plain::run(&mut state, table, events, &mut Tally::default());
    assert_eq!(answer.number, 0);
    state
}

/// A list of accepted events of all kinds for three desks: a message is produced and forwarded along the line, a desk subscribes and
/// unsubscribes, all leave and join again.
pub fn mixed(count: usize) -> Vec<u8> {
    let mut e = Vec::new();
    let mut m = 0;
    while e.len() < 16 * count {
        e.extend(record(1, 0, m, 0, 0, 0));
        for p in 0..3 {
            e.extend(record(2, p, m, 0, 0, 0));
        }
        e.extend(record(3, 1, 0, 6, 0, 0));
        e.extend(record(4, 1, 0, 6, 0, 0));
        for p in [2, 1, 0] {
            e.extend(record(5, p, 0, 0, 0, 0));
        }
        e.extend(three());
        e.extend(record(0, 0, 0, 0, 0, 0));
        m = (m + 1) % 64;
    }
    e.truncate(16 * count);
    e
}

/// Forwards of 64 messages through the first three desks of a line.
pub fn forwards() -> Vec<u8> {
    let sent = (0..64).flat_map(|m| (0..3).flat_map(move |p| record(2, p, m, 0, 0, 0)));
    produced(64).into_iter().chain(sent).collect()
}
