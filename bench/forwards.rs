//! Single forwards that every engine must answer alike: the receivers, their number, the refusals and the bytes. They aren't timed.
use crate::engine::{Engine, Forwarded};
use crate::inputs::{built, desks, produced, table, Links};
use crate::plain;

/// Desks, and after how many forwards their drain is cut: in a line some who are known to subscribe have a message and some don't.
const CUT: [(u8, Links, u32); 4] = [(3, Links::Line, 80), (32, Links::Line, 80), (31, Links::Dense, 20), (32, Links::Dense, 20)];

/// Stops the program where an engine answers otherwise than the first. Every peer and message is tried, and one beyond the last.
pub fn compare(engines: &[Engine]) {
    let table = table(8);
    let mut received = 0;
    for (size, links, forwards) in CUT {
        let mut state = built(&table, &[desks(size, links, 8), produced(64)].concat());
        assert_eq!(plain::drain(&mut state, &table, forwards).forwards, forwards);
        for (peer, message) in (0..=32).flat_map(|p| (0..=64).map(move |m| (p, m))) {
            let first = outcome(&engines[0], &state, &table, peer, message);
            for engine in &engines[1..] {
                let other = outcome(engine, &state, &table, peer, message);
                assert_eq!(first.0, other.0, "{message} by {peer}");
                assert!(first.1 == other.1, "{message} by {peer}: the bytes differ");
            }
            received |= first.0.receivers;
        }
    }
    assert_eq!(received, !1, "every desk receives but 0, which has produced all");
}

fn outcome(engine: &Engine, state: &[u8], table: &[u8], peer: u8, message: u8) -> (Forwarded, Vec<u8>) {
    let mut lent = state.to_vec();
    let answer = (engine.forward)(&mut lent, table, peer, message);
    (answer, lent)
}
