//! Lists of more than 65,536 events, so that a count or place kept in 16 bits shows.

use super::lists::{accepted, any_bytes, blind, with_message, with_words, Bytes, Mood};
use super::refusals::refused;
use super::rng::Rng;
use super::{networks, table_or_zero};
use crate::model::events::{apply, Event, Table, TABLE_SIZE};
use crate::model::state::{Message, Network, Peer, STATE_SIZE};

const SKIP: Bytes = [0; 16];

/// The kinds of lists: one of skips, one for each number from 6 to 16, and those below.
const KINDS: usize = 16;

/// The lengths of lists of skips alone: about 65,536, beyond it and beyond twice that.
const SKIPS: [usize; 5] = [65_535, 65_536, 65_537, 70_000, 131_073];

/// State, table and events of a long list.
pub fn list(rng: &mut Rng, case: usize) -> (Vec<u8>, Vec<u8>, Vec<u8>) {
    match case % KINDS {
        0 => {
            let network = networks::any(rng);
            let events = SKIP.repeat(SKIPS[case / KINDS % SKIPS.len()]);
            (network.bytes(), networks::table(rng, &network), events)
        }
        kind @ 1..=11 => refused_late(rng, kind as u8 + 5),
        12 => (vec![0; STATE_SIZE], same_topic(), tides(rng)),
        13 => (vec![0; STATE_SIZE], vec![0; TABLE_SIZE], again_and_again()),
        _ => mixed(rng),
    }
}

/// Skips, then beyond place 65,536 an event refused by this number, then some never looked at.
fn refused_late(rng: &mut Rng, number: u8) -> (Vec<u8>, Vec<u8>, Vec<u8>) {
    loop {
        let network = networks::any(rng);
        let table = networks::table(rng, &network);
        if let Some(end) = refused(rng, &network, &table_or_zero(&table), number) {
            let mut events = SKIP.repeat(65_536 + rng.below(6000) as usize);
            events.extend(end);
            events.extend([blind(rng), any_bytes(rng)].concat());
            return (network.bytes(), table, events);
        }
    }
}

/// A table of topic 0, with each peer as the origin of two messages.
fn same_topic() -> Vec<u8> {
    (0..64).flat_map(|m| [0, m % 32, 0, 0]).collect()
}

/// 32 peers, each linked to every other, join, flood 64 messages and leave, again and again: more than
/// 65,535 forwards and deliveries.
fn tides(rng: &mut Rng) -> Vec<u8> {
    let mut events = Vec::new();
    for _ in 0..34 {
        let mut there = 0;
        for p in rng.shuffled(32) {
            events.extend(with_words(6, Peer(p), [1, 1, there]));
            there |= 1 << p;
        }
        for m in 0..64 {
            let origin = m % 32;
            events.extend(with_message(1, Peer(origin), Message(m)));
            events.extend(with_message(2, Peer(origin), Message(m)));
            for p in rng.shuffled(32).into_iter().filter(|p| *p != origin) {
                events.extend(with_message(2, Peer(p), Message(m)));
            }
        }
        for p in rng.shuffled(32) {
            events.extend(with_words(5, Peer(p), [0; 3]));
        }
    }
    events
}

/// One peer produces and forwards every message and leaves, after which all are new again: more than
/// 65,535 messages produced.
fn again_and_again() -> Vec<u8> {
    let mut turn = with_words(6, Peer(0), [0, 1, 0]).to_vec();
    for m in 0..64 {
        turn.extend(with_message(1, Peer(0), Message(m)));
        turn.extend(with_message(2, Peer(0), Message(m)));
    }
    turn.extend(with_words(5, Peer(0), [0; 3]));
    turn.repeat(1025)
}

/// All kinds, the cheap ones far more often, so that the list is made in a moment.
fn mixed(rng: &mut Rng) -> (Vec<u8>, Vec<u8>, Vec<u8>) {
    let mut network = networks::any(rng);
    let (state, bytes) = (network.bytes(), networks::table(rng, &network));
    let (table, mood) = (table_or_zero(&bytes), Mood::any(rng));
    let mut events = Vec::new();
    for _ in 0..70_000 + rng.below(3000) {
        let next = cheap(rng, &network, &table, mood);
        apply(&mut network, &table, &Event::parse(&next).expect("an event")).expect("an accepted event");
        events.extend(next);
    }
    let number = 6 + rng.below(11) as u8;
    events.extend(refused(rng, &network, &table, number).filter(|_| rng.chance(1, 2)).unwrap_or(SKIP));
    (state, bytes, events)
}

fn cheap(rng: &mut Rng, network: &Network, table: &Table, mood: Mood) -> Bytes {
    let peer = Peer(rng.below(32) as u8);
    match rng.below(24) {
        0 => accepted(rng, network, table, mood),
        code @ 3..=4 if network.present(peer) => with_words(code as u8, peer, [1 << rng.below(32), 0, 0]),
        _ => SKIP,
    }
}
