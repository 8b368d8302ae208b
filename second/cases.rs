//! The inputs of each part of the comparison, made from a seeded source and the case's number.

use crate::entries::Part;
use crate::inputs::rng::Rng;
use crate::inputs::{self, networks, wrong_length};
use crate::model::calls::drain_network;
use crate::model::events::TABLE_SIZE;
use crate::model::state::{all_peers, Network, Peer, PEERS, STATE_SIZE};
use crate::model::Tally;
use crate::subject::{tally_bytes, Call};

/// One call and its lent buffers as they are before it.
pub struct Case {
    pub call: Call,
    pub buffers: Vec<Vec<u8>>,
}

pub fn make(part: Part, rng: &mut Rng, number: usize) -> Case {
    let (call, buffers) = match part {
        Part::Check => (Call::Check, vec![read_state(rng, number)]),
        Part::Copy => (Call::Copy, vec![read_state(rng, number), written(rng)]),
        Part::Run => {
            let (state, network) = inputs::state(rng, number);
            let table = inputs::table(rng, &network);
            let most = match number {
                _ if number % 4000 == 3998 => 20_000,
                _ if number % 40 == 38 => 1000,
                _ => 30,
            };
            let events = inputs::events(rng, network, &table, most, number);
            (Call::Run, vec![state, table, events, tally(rng)])
        }
        Part::Long => {
            let (state, table, events) = inputs::long::list(rng, number);
            (Call::Run, vec![state, table, events, tally(rng)])
        }
        Part::Forward => forward(rng, number),
        Part::Drain => drain(rng, number),
        Part::Image => (Call::Image, vec![image_state(rng, number), written(rng)]),
        Part::Orders | Part::Program => panic!("no single call"),
    };
    Case { call, buffers }
}

/// What the tally holds before a run: anything.
fn tally(rng: &mut Rng) -> Vec<u8> {
    tally_bytes(&Tally { produced: rng.next(), forwards: rng.next(), deliveries: rng.next() })
}

/// For reading, half of the states are damaged.
fn read_state(rng: &mut Rng, number: usize) -> Vec<u8> {
    if number % 2 == 0 {
        inputs::damage::state(rng, number / 2)
    } else {
        inputs::state(rng, number).0
    }
}

/// The image of a network with messages is worth more than that of one without.
fn image_state(rng: &mut Rng, number: usize) -> Vec<u8> {
    if rng.chance(1, 3) && !inputs::has_damage(number) {
        networks::built(rng).bytes()
    } else {
        inputs::state(rng, number).0
    }
}

/// A buffer to be written: old bytes of the right length, or of a wrong one.
fn written(rng: &mut Rng) -> Vec<u8> {
    if rng.chance(1, 6) {
        wrong_length(rng, STATE_SIZE)
    } else {
        rng.bytes(STATE_SIZE)
    }
}

/// A pending pair, a pair that is not pending, an absent peer, or numbers out of range.
fn forward(rng: &mut Rng, case: usize) -> (Call, Vec<Vec<u8>>) {
    let (state, network) = match case % 40 {
        // A message that all the others can get.
        7 => {
            let network = networks::about_to_flood(rng);
            (network.bytes(), network)
        }
        _ => inputs::state(rng, case),
    };
    let table = inputs::table(rng, &network);
    let kind = rng.below(8);
    let absent: Vec<Peer> = all_peers().filter(|peer| !network.present(*peer)).collect();
    let present: Vec<Peer> = all_peers().filter(|peer| network.present(*peer)).collect();
    let (mut peer, mut message) = (rng.below(32) as u8, rng.below(64) as u8);
    match kind {
        0 | 1 => peer = rng.pick(&present).map_or(peer, |p| p.0),
        2 => peer = rng.pick(&absent).map_or(peer, |p| p.0),
        _ => {
            if let Some((p, m)) = rng.pick(&network.pending_pairs()) {
                (peer, message) = (p.0, m.0);
            }
        }
    }
    if kind == 3 {
        match rng.below(4) {
            0 => peer = rng.pick(&[32, 33, 64, 128, 255]).expect("a number"),
            1 => peer |= 1 << (5 + rng.below(3)),
            2 => message = 64 + rng.below(192) as u8,
            _ => message |= 1 << (6 + rng.below(2)),
        }
    }
    (Call::Forward { peer, message }, vec![state, table])
}

/// Drains of any network with any budget, of the longest lines, and with budgets about their very need.
fn drain(rng: &mut Rng, case: usize) -> (Call, Vec<Vec<u8>>) {
    let sound = |network: Network| (network.bytes(), network);
    let (state, network) = match case % 8 {
        _ if inputs::has_damage(case) => inputs::state(rng, case),
        0 if case % 64 == 0 => {
            let order = if rng.chance(1, 2) { rng.shuffled(PEERS) } else { (0..PEERS).rev().collect() };
            sound(networks::longest(&order))
        }
        0..=2 => sound(networks::shaped(rng)),
        _ => inputs::state(rng, case),
    };
    let table = inputs::table(rng, &network);
    let mut budget = inputs::budget(rng);
    if rng.chance(1, 4) {
        // About the forwards that are needed in all: one fewer, as many, one more, or any share of them.
        let mut network = network;
        let need = drain_network(&mut network, &inputs::table_or_zero(&table), u32::MAX).0;
        let share = rng.below(need + 1);
        budget = rng.pick(&[need.saturating_sub(1), need, need + 1, share]).expect("a budget");
    }
    (Call::Drain { budget }, vec![state, table])
}

/// The lengths about every limit that 01 names for the program, and other odd ones.
const LENGTHS: [usize; 16] = [
    0, 1, 5119, 5120, 5121, 5375, 5376, 5377, 5391, 5392, 65_535, 65_536, 65_537, 65_552, 131_073, 1_000_000,
];

/// "state, then table, then events", cut or prolonged to every length above.
pub fn program_input(rng: &mut Rng, number: usize) -> Vec<u8> {
    let step = number % 100 / 5;
    if number % 5 == 0 && step < LENGTHS.len() {
        // A good state and table and nothing but skips, so that only the length can be refused.
        let network = networks::any(rng);
        let mut input = network.bytes();
        input.extend(networks::table(rng, &network));
        input.resize(LENGTHS[step], 0);
        return input;
    }
    let (mut input, network) = inputs::state(rng, number);
    if rng.chance(9, 10) {
        input.resize(STATE_SIZE, 0);
    }
    let mut table = inputs::table(rng, &network);
    if rng.chance(9, 10) {
        table.resize(TABLE_SIZE, 0);
    }
    let most = if number % 50 == 38 { 3700 } else { 30 };
    let events = inputs::events(rng, network, &table, most, number);
    input.extend(table);
    input.extend(events);
    if rng.chance(1, 8) {
        let wide = rng.below(200_000) as usize;
        let length = rng.pick(&LENGTHS).filter(|_| rng.chance(7, 8)).unwrap_or(wide);
        // What is added is either skips, so that a long list can be run to its end, or any event bytes.
        let filler = if rng.chance(1, 2) { 0 } else { rng.byte() };
        input.resize(length, filler);
    }
    input
}

/// Where the pieces end in which the input is handed over; none for one that is handed over at once. Some
/// pieces have a single byte, and half of the ends stand within the first 6,000 bytes.
pub fn pieces(rng: &mut Rng, length: usize, number: usize) -> Vec<usize> {
    if number % 7 != 3 || length == 0 {
        return Vec::new();
    }
    let mut ends = Vec::new();
    for _ in 0..2 + rng.below(5) {
        let bound = if rng.chance(1, 2) { length } else { length.min(6000) };
        let end = rng.below(bound as u32 + 1) as usize;
        ends.extend([end, length.min(end + 1)]);
    }
    ends.sort();
    ends
}
