//! Seeded inputs for the comparison: networks, damaged states, message tables, event lists.

pub mod damage;
pub mod lists;
pub mod long;
pub mod networks;
pub mod refusals;
pub mod rng;
pub mod several;

use crate::model::events::{Table, TABLE_SIZE};
use crate::model::state::{Network, STATE_SIZE};
use rng::Rng;

/// Every tenth case has a damaged state: by its number and not by chance, so that each part goes through all
/// kinds of damage. The numbers keep clear of the other cases that go by theirs.
pub fn has_damage(case: usize) -> bool {
    case % 10 == 3
}

/// State bytes: sound, or damaged in the way that the case's number picks, or of a wrong length. Beside them
/// the network that they hold if sound, else the blank one, for the choice of the other inputs.
pub fn state(rng: &mut Rng, case: usize) -> (Vec<u8>, Network) {
    if has_damage(case) {
        (damage::state(rng, case / 10), Network::blank())
    } else if rng.chance(1, 16) {
        (wrong_length(rng, STATE_SIZE), Network::blank())
    } else {
        let network = networks::any(rng);
        (network.bytes(), network)
    }
}

/// Table bytes that suit the network; damaged or of a wrong length in a few cases, so that a case is seldom
/// refused for two reasons at once, though some are.
pub fn table(rng: &mut Rng, network: &Network) -> Vec<u8> {
    match rng.below(20) {
        0 => wrong_length(rng, TABLE_SIZE),
        1 => damage::table(rng),
        _ => networks::table(rng, network),
    }
}

/// Event bytes that suit network and table where these are good; `most` bounds the accepted events. Every
/// fifth case is a step of the walk through all codes and bytes.
pub fn events(rng: &mut Rng, network: Network, table: &[u8], most: u32, case: usize) -> Vec<u8> {
    let step = if case % 5 == 4 { Some(case / 5) } else { None };
    let mut bytes = lists::events(rng, network, &table_or_zero(table), most, step);
    if rng.chance(1, 16) {
        let extra = 1 + rng.below(15) as usize;
        if bytes.len() >= 16 && rng.chance(1, 2) {
            bytes.truncate(bytes.len() - extra);
        } else {
            bytes.extend(rng.bytes(extra));
        }
    }
    bytes
}

/// The table that good bytes hold; the zero table for any other bytes.
pub fn table_or_zero(table: &[u8]) -> Table {
    let good = if table.len() == TABLE_SIZE { Table::parse(table).ok() } else { None };
    good.unwrap_or_else(|| Table::parse(&[0; TABLE_SIZE]).expect("the zero table is good"))
}

/// Bytes of any length but the right one: 0, 1, one less, one more, a record less or more, and others.
pub fn wrong_length(rng: &mut Rng, right: usize) -> Vec<u8> {
    let picks = [0, 1, 2, 16, right / 2, right - 160, right - 4, right - 1, right + 1, right + 4];
    let length = match rng.below(14) {
        pick @ 0..=9 => picks[pick as usize],
        10 => right + 160,
        11 => 2 * right,
        12 => 65_536 + rng.below(2) as usize,
        _ => rng.below(3 * right as u32) as usize,
    };
    let length = if length == right { right + 1 } else { length };
    match rng.below(3) {
        0 => vec![0; length],
        1 => rng.bytes(length),
        _ => networks::any(rng).bytes().into_iter().cycle().take(length).collect(),
    }
}

/// A budget of forwards: the small ones, those about the largest need, the largest number, and any.
pub fn budget(rng: &mut Rng) -> u32 {
    let picks = [0, 1, 2, 3, 2047, 2048, 2049, u32::MAX, u32::MAX - 1, 1 << 31];
    match rng.below(16) {
        pick @ 0..=9 => picks[pick as usize],
        10 | 11 => rng.below(16),
        12 | 13 => rng.below(200),
        14 => rng.below(2100),
        _ => rng.next() as u32,
    }
}
