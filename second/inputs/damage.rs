//! Damaged states and tables: every soundness rule at the first, the last and any peer, and rougher harm.
//! States with several faults are in several.rs.

use super::networks::{any, built, full, link, tie};
use super::rng::Rng;
use super::several::{plant, SEVERAL};
use crate::model::events::TABLE_SIZE;
use crate::model::soundness::Fault;
use crate::model::state::{all_peers, all_topics, Message, Network, Peer, Record, Topic};

/// A fault of one record alone, everything else in the network being sound.
#[derive(Clone, Copy, Debug, PartialEq, Eq)]
pub enum Exact {
    FirstByteOfAbsent,
    FirstByteOfPresent,
    GapOfAbsent,
    GapOfPresent,
    AbsentNotBlank,
    OwnNeighbour,
    NeighbourAbsent,
    NotListedBack,
    KnownMissing,
    KnownNotSubscribed,
    KnownNoNeighbour,
    KnownSelf,
    PendingAndSeen,
}

pub const EXACT: [Exact; 13] = [
    Exact::FirstByteOfAbsent,
    Exact::FirstByteOfPresent,
    Exact::GapOfAbsent,
    Exact::GapOfPresent,
    Exact::AbsentNotBlank,
    Exact::OwnNeighbour,
    Exact::NeighbourAbsent,
    Exact::NotListedBack,
    Exact::KnownMissing,
    Exact::KnownNotSubscribed,
    Exact::KnownNoNeighbour,
    Exact::KnownSelf,
    Exact::PendingAndSeen,
];

impl Exact {
    /// The rule that is broken, where q and t are the peer and the topic at fault.
    fn fault(self, q: Peer, t: Topic) -> Fault {
        match self {
            Exact::FirstByteOfAbsent | Exact::FirstByteOfPresent => Fault::FirstBytes,
            Exact::GapOfAbsent | Exact::GapOfPresent => Fault::FirstBytes,
            Exact::AbsentNotBlank => Fault::AbsentNotBlank,
            Exact::OwnNeighbour => Fault::OwnNeighbour,
            Exact::NeighbourAbsent => Fault::NeighbourAbsent(q),
            Exact::NotListedBack => Fault::NotListedBack(q),
            Exact::KnownMissing | Exact::KnownNotSubscribed => Fault::Known(t),
            Exact::KnownNoNeighbour | Exact::KnownSelf => Fault::Known(t),
            Exact::PendingAndSeen => Fault::PendingAndSeen,
        }
    }
}

/// Takes p from every list of neighbours.
fn unlist(network: &mut Network, p: Peer) {
    for q in all_peers() {
        network.at_mut(q).neighbours.remove(&p);
    }
}

/// Takes a peer out of a network; the known subscribers are tied afterwards.
pub fn remove(network: &mut Network, p: Peer) {
    *network.at_mut(p) = Default::default();
    unlist(network, p);
}

/// A network where p has exactly this fault and no other record has any.
pub fn exact(rng: &mut Rng, rule: Exact, p: Peer) -> (Network, Fault) {
    let mut network = if rng.chance(1, 4) { full(rng) } else { built(rng) };
    let q = Peer(((u32::from(p.0) + 1 + rng.below(31)) % 32) as u8);
    let t = Topic(rng.below(32) as u8);
    let m = Message(rng.below(64) as u8);
    network.at_mut(p).first = 1;
    if rule == Exact::NeighbourAbsent {
        remove(&mut network, q);
    } else {
        network.at_mut(q).first = 1;
    }
    match rule {
        Exact::FirstByteOfAbsent | Exact::GapOfAbsent | Exact::AbsentNotBlank => remove(&mut network, p),
        Exact::FirstByteOfPresent => {
            // Nobody lists p, so that the fault is p's alone.
            network.at_mut(p).neighbours.clear();
            unlist(&mut network, p);
        }
        Exact::NotListedBack | Exact::KnownNotSubscribed | Exact::KnownMissing => link(&mut network, p, q),
        Exact::KnownNoNeighbour => {
            network.at_mut(p).neighbours.remove(&q);
            network.at_mut(q).neighbours.remove(&p);
        }
        Exact::KnownSelf | Exact::OwnNeighbour => drop(network.at_mut(p).subs.insert(t)),
        _ => (),
    }
    match rule {
        Exact::KnownMissing | Exact::KnownNoNeighbour => drop(network.at_mut(q).subs.insert(t)),
        Exact::KnownNotSubscribed => drop(network.at_mut(q).subs.remove(&t)),
        _ => (),
    }
    tie(&mut network);
    spoil(rng, &mut network, rule, (p, q), t, m);
    (network, rule.fault(q, t))
}

/// Puts the fault into a sound network made ready for it.
fn spoil(rng: &mut Rng, network: &mut Network, rule: Exact, pair: (Peer, Peer), t: Topic, m: Message) {
    let (p, q) = pair;
    match rule {
        Exact::FirstByteOfAbsent | Exact::FirstByteOfPresent => {
            let high = 2 + rng.below(254) as u8;
            network.at_mut(p).first = rng.pick(&[2, 3, 128, 255, high]).expect("a byte");
        }
        Exact::GapOfAbsent | Exact::GapOfPresent => {
            network.at_mut(p).gap[rng.below(3) as usize] = 1 << rng.below(8);
        }
        Exact::AbsentNotBlank => leave_something(rng, network.at_mut(p), q, t, m),
        Exact::OwnNeighbour => {
            // Its known subscribers follow, so that no other rule is broken.
            network.at_mut(p).neighbours.insert(p);
            for topic in network.at(p).subs.clone() {
                network.at_mut(p).learn(topic, p);
            }
        }
        Exact::NeighbourAbsent => drop(network.at_mut(p).neighbours.insert(q)),
        Exact::NotListedBack => {
            network.at_mut(q).neighbours.remove(&p);
            all_topics().for_each(|topic| network.at_mut(q).unlearn(topic, p));
        }
        Exact::KnownMissing => network.at_mut(p).unlearn(t, q),
        Exact::KnownNotSubscribed | Exact::KnownNoNeighbour => network.at_mut(p).learn(t, q),
        Exact::KnownSelf => network.at_mut(p).learn(t, p),
        Exact::PendingAndSeen => {
            network.at_mut(p).pending.insert(m);
            network.at_mut(p).seen.insert(m);
        }
    }
}

/// One bit somewhere in the record of an absent peer.
pub fn leave_something(rng: &mut Rng, record: &mut Record, q: Peer, t: Topic, m: Message) {
    match rng.below(6) {
        0 => drop(record.pubs.insert(t)),
        1 => drop(record.subs.insert(t)),
        2 => drop(record.neighbours.insert(q)),
        3 => drop(record.pending.insert(m)),
        4 => drop(record.seen.insert(m)),
        _ => record.learn(t, q),
    }
}

/// The kinds of `rough`.
const ROUGH: usize = 14;

/// Harm that may touch several records, or, seldom, leave the state sound.
fn rough(rng: &mut Rng, kind: usize, p: Peer) -> Vec<u8> {
    let mut network = any(rng);
    let start = 160 * p.0 as usize;
    match kind {
        // A leaver cleared but left with its neighbours.
        0 => *network.at_mut(p) = Default::default(),
        // Only the byte that says present is cleared, or set.
        1 => network.at_mut(p).first ^= 1,
        2 => network.at_mut(p).first = 2,
        // Topics changed, and the neighbours' records do not follow.
        3 => network.at_mut(p).subs.extend([Topic(rng.below(32) as u8), Topic(rng.below(32) as u8)]),
        4 => network.at_mut(p).subs.clear(),
        _ => (),
    }
    let mut bytes = network.bytes();
    match kind {
        5 => bytes[start + rng.below(160) as usize] ^= 1 << rng.below(8),
        6 => bytes[start + rng.below(160) as usize] = rng.byte(),
        7 => bytes[start..start + 160].fill(255),
        8 => bytes[start..start + 160].copy_from_slice(&rng.bytes(160)),
        9 => bytes = rng.bytes(5120),
        10 => bytes.fill(255),
        11 => bytes.rotate_right(1 + rng.below(5119) as usize),
        12 => bytes.fill([1, 2][rng.below(2) as usize]),
        13 => {
            let other = 160 * rng.below(32) as usize;
            let record = bytes[start..start + 160].to_vec();
            bytes.copy_within(other..other + 160, start);
            bytes[other..other + 160].copy_from_slice(&record);
        }
        _ => (),
    }
    bytes
}

/// A damaged state of the right length. The step goes through every kind of damage, each at three peers.
pub fn state(rng: &mut Rng, step: usize) -> Vec<u8> {
    let any_peer = rng.below(32) as u8;
    let p = Peer([0, 31, any_peer][step % 3]);
    let kind = step / 3 % (SEVERAL.len() + EXACT.len() + ROUGH);
    if kind < SEVERAL.len() {
        return plant(rng, SEVERAL[kind], p).0.bytes();
    }
    let kind = kind - SEVERAL.len();
    if kind >= EXACT.len() {
        return rough(rng, kind - EXACT.len(), p);
    }
    let mut bytes = exact(rng, EXACT[kind], p).0.bytes();
    // A second fault at another place in some: the lowest record is the answer.
    if rng.chance(1, 4) {
        bytes[rng.below(5120) as usize] ^= 1 << rng.below(8);
    }
    bytes
}

/// A damaged table of the right length: one row or several, first, last or any.
pub fn table(rng: &mut Rng) -> Vec<u8> {
    if rng.chance(1, 8) {
        return rng.bytes(TABLE_SIZE);
    }
    let mut bytes: Vec<u8> =
        (0..TABLE_SIZE).map(|i| if i % 4 < 2 { rng.below(32) as u8 } else { 0 }).collect();
    for _ in 0..1 + rng.below(3) {
        let row = [0, 63, rng.below(64)][rng.below(3) as usize] as usize;
        let place = 4 * row + rng.below(4) as usize;
        bytes[place] = match rng.below(4) {
            0 => 32,
            1 => 255,
            2 => bytes[place] | 1 << (5 + rng.below(3)),
            _ => 32 + rng.below(224) as u8,
        };
        if place % 4 >= 2 && rng.chance(1, 2) {
            bytes[place] = 1;
        }
    }
    bytes
}
