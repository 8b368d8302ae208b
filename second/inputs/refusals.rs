//! Events that are refused: by a chosen number, and in a walk through every code and byte.

use super::lists::{
    accepted, accepted_of, any_bytes, any_message, any_peer, event, message_where, Bytes, Mood,
};
use super::lists::{peers_where, publishes, with_message, with_words, word_of};
use super::rng::Rng;
use crate::model::events::{is_new, used_bytes, Table};
use crate::model::state::{Message, Network, Peer};

/// An event that this network refuses by this number (6 to 16), if there is one.
pub fn refused(rng: &mut Rng, network: &Network, table: &Table, number: u8) -> Option<Bytes> {
    let present = peers_where(network, true);
    match number {
        6 => Some(unknown_code(rng, network, table)),
        7 => Some(bad_field(rng, network, table)),
        8 => by_absent(rng, network, table),
        10..=12 => produce(rng, network, table, number),
        13 => {
            let peer = rng.pick(&present)?;
            let record = network.at(peer);
            let seen = message_where(rng, |m| record.seen.contains(&m));
            let any = message_where(rng, |m| !record.pending.contains(&m));
            Some(with_message(2, peer, if rng.chance(1, 2) { seen.or(any)? } else { any? }))
        }
        14 => {
            let busy: Vec<Peer> =
                present.into_iter().filter(|p| !network.at(*p).pending.is_empty()).collect();
            rng.pick(&busy).map(|peer| with_words(5, peer, [0; 3]))
        }
        _ => join(rng, network, number),
    }
}

/// Refused by 8: any kind that asks for a present peer.
fn by_absent(rng: &mut Rng, network: &Network, table: &Table) -> Option<Bytes> {
    let peer = rng.pick(&peers_where(network, false))?;
    let origin_there = |m| table.origin(m) == peer;
    let m = message_where(rng, origin_there).unwrap_or(any_message(rng));
    let m = if rng.chance(1, 2) { m } else { any_message(rng) };
    let word = rng.word();
    Some(match 1 + rng.below(5) as u8 {
        code @ (1 | 2) => with_message(code, peer, m),
        5 => with_words(5, peer, [0; 3]),
        code => with_words(code, peer, [word, 0, 0]),
    })
}

/// Refused by 10, 11 or 12.
fn produce(rng: &mut Rng, network: &Network, table: &Table, number: u8) -> Option<Bytes> {
    if number == 10 {
        let peer = rng.pick(&peers_where(network, true))?;
        let m = message_where(rng, |m| table.origin(m) != peer)?;
        return Some(with_message(1, peer, m));
    }
    let m = if number == 11 {
        message_where(rng, |m| network.present(table.origin(m)) && !publishes(network, table, m))?
    } else {
        let held = |m: Message| {
            let origin = network.at(table.origin(m));
            origin.pending.contains(&m) || origin.seen.contains(&m)
        };
        let old = |m| publishes(network, table, m) && !is_new(network, m);
        // Half the time one that the origin itself does not hold: newness is asked of every peer.
        let elsewhere = message_where(rng, |m| old(m) && !held(m));
        let any = message_where(rng, old);
        if rng.chance(1, 2) {
            elsewhere.or(any)?
        } else {
            any?
        }
    };
    Some(with_message(1, table.origin(m), m))
}

/// Refused by 9, 15 or 16.
fn join(rng: &mut Rng, network: &Network, number: u8) -> Option<Bytes> {
    let (present, absent) = (peers_where(network, true), peers_where(network, false));
    let there = word_of(&present);
    let peer = rng.pick(if number == 9 { &present } else { &absent })?;
    let others = rng.word() & if rng.chance(1, 2) { there } else { u32::MAX };
    let neighbours = match number {
        9 => others,
        15 => others | 1 << peer.0,
        _ => {
            let more: Vec<Peer> = absent.into_iter().filter(|other| *other != peer).collect();
            others & !(1 << peer.0) | 1 << rng.pick(&more)?.0
        }
    };
    Some(with_words(6, peer, [rng.word(), rng.word(), neighbours]))
}

/// Codes 7 to 255 on bytes that would otherwise do, on zero bytes, and on any bytes.
fn unknown_code(rng: &mut Rng, network: &Network, table: &Table) -> Bytes {
    let mut bytes = match rng.below(3) {
        0 => [0; 16],
        1 => any_bytes(rng),
        _ => accepted(rng, network, table, Mood::Even),
    };
    bytes[0] = match rng.below(5) {
        0 => 7,
        1 => 255,
        2 => bytes[0] | 1 << (3 + rng.below(5)),
        _ => 7 + rng.below(249) as u8,
    };
    bytes[0] = bytes[0].max(7);
    bytes
}

/// An event with one wrong field: an unused byte, or a peer or message out of range.
fn bad_field(rng: &mut Rng, network: &Network, table: &Table) -> Bytes {
    let code = rng.below(7) as u8;
    let plain = event(code, any_peer(rng), Message(0), [0; 3]);
    let mut bytes = accepted_of(rng, network, table, code).unwrap_or(plain);
    let used = used_bytes(code);
    let unused: Vec<usize> = (1..16).filter(|place| !used.contains(place)).collect();
    let high = [32, 33, 63, 64, 128, 255];
    match rng.below(6) {
        0 if code > 0 => bytes[1] = rng.pick(&high).expect("a high number"),
        1 if code > 0 => bytes[1] |= 1 << (5 + rng.below(3)),
        2 if code == 1 || code == 2 => bytes[2] = 64 + rng.below(192) as u8,
        3 if code == 1 || code == 2 => bytes[2] |= 1 << (6 + rng.below(2)),
        _ => {
            let place = rng.pick(&unused).expect("byte 3 is never used");
            bytes[place] = if rng.chance(1, 2) { 1 << rng.below(8) } else { 1 + rng.below(255) as u8 };
        }
    }
    bytes
}

/// Walks through every code from 7 to 255, and through every byte of every kind: an unused byte that is
/// not zero, a peer or message out of range, or, for a byte of a set, an event as good as before.
pub fn walked(rng: &mut Rng, network: &Network, table: &Table, step: usize) -> Bytes {
    let kind = (step / 2 % 7) as u8;
    let plain = event(kind, any_peer(rng), Message(0), [0; 3]);
    let mut bytes = accepted_of(rng, network, table, kind).unwrap_or(plain);
    let place = 1 + step / 14 % 15;
    let high = 1 << rng.below(8);
    match (step % 2, place) {
        (0, _) => bytes[0] = 7 + (step / 2 % 249) as u8,
        (_, 1) if kind > 0 => bytes[1] = bytes[1] | high | 32,
        (_, 2) if kind == 1 || kind == 2 => bytes[2] = bytes[2] | high | 64,
        _ if used_bytes(kind).contains(&place) => (),
        _ => bytes[place] = high,
    }
    bytes
}
