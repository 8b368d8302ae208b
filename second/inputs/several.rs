//! States on which E1's orders are tried: several rules broken in one record or in two, several peers or
//! topics at fault in one rule, and the first and the last of them. All else in such a state is sound.

use super::damage::{leave_something, remove};
use super::networks::{built, tie};
use super::rng::Rng;
use crate::model::state::{Message, Network, Peer, Topic, PEERS, TOPICS};
use crate::model::Checked;

/// What is wrong with a state. The rules go by their numbers.
#[derive(Clone, Copy, Debug, PartialEq, Eq)]
pub enum Several {
    /// 23, 24 or 25, with this peer or topic at fault and no other.
    Of(u8, u8),
    /// 23, 24 or 25, with two or more at fault.
    OfMany(u8),
    /// One record breaks this rule and a higher one.
    AndHigher(u8),
    /// One record breaks this rule, and a record further on breaks a lower one.
    BeforeLower(u8),
    /// 23 for a neighbour whose byte 0 is neither 0 nor 1.
    OddNeighbour,
    /// 23 for a neighbour above one that is present and does not list back.
    AbsentAbove,
}

pub const SEVERAL: [Several; 23] = [
    Several::Of(23, 0),
    Several::Of(23, 31),
    Several::Of(24, 0),
    Several::Of(24, 31),
    Several::Of(25, 0),
    Several::Of(25, 31),
    Several::OfMany(23),
    Several::OfMany(24),
    Several::OfMany(25),
    Several::AndHigher(20),
    Several::AndHigher(21),
    Several::AndHigher(22),
    Several::AndHigher(23),
    Several::AndHigher(24),
    Several::AndHigher(25),
    Several::BeforeLower(21),
    Several::BeforeLower(22),
    Several::BeforeLower(23),
    Several::BeforeLower(24),
    Several::BeforeLower(25),
    Several::BeforeLower(26),
    Several::OddNeighbour,
    Several::AbsentAbove,
];

/// A network and what its reading must answer.
pub type Planted = (Network, Checked);

/// A network to plant faults in, sound before the first, and what they are planted with, each used once.
struct Ground {
    network: Network,
    /// Present peers without links.
    loose: Vec<Peer>,
    absent: Vec<Peer>,
    topics: Vec<u8>,
}

impl Ground {
    /// The records of `tested` will be at fault: absent where 21 is to be planted, present elsewhere.
    fn new(rng: &mut Rng, tested: &[(Peer, u8)], loose: &[Peer], absent: &[Peer]) -> Ground {
        let mut network = built(rng);
        loose.iter().chain(absent).for_each(|q| remove(&mut network, *q));
        loose.iter().for_each(|q| network.at_mut(*q).first = 1);
        for (p, number) in tested {
            match number {
                21 => remove(&mut network, *p),
                _ => network.at_mut(*p).first = 1,
            }
        }
        tie(&mut network);
        Ground { network, loose: loose.to_vec(), absent: absent.to_vec(), topics: rng.shuffled(TOPICS) }
    }

    /// With four loose and four absent peers that are none of `tested`.
    fn any(rng: &mut Rng, tested: &[(Peer, u8)]) -> Ground {
        let free = |q: &Peer| tested.iter().all(|(p, _)| p != q);
        let others: Vec<Peer> = rng.shuffled(PEERS).into_iter().map(Peer).filter(free).collect();
        Ground::new(rng, tested, &others[..4], &others[4..8])
    }

    /// Makes record p break a rule, by bytes that only p's own soundness rests on. Answers the detail.
    fn plant(&mut self, rng: &mut Rng, number: u8, p: Peer) -> u8 {
        let any_peer = Peer(rng.below(32) as u8);
        let (topic, message) = (Topic(rng.below(32) as u8), Message(rng.below(64) as u8));
        let record = self.network.at_mut(p);
        match number {
            // A first byte says absent, so it is for a record that nobody lists.
            20 if record.neighbours.is_empty() && rng.chance(1, 2) => record.first = 2 + rng.below(254) as u8,
            20 => record.gap[rng.below(3) as usize] = 1 << rng.below(8),
            21 => leave_something(rng, record, any_peer, topic, message),
            22 => drop(record.neighbours.insert(p)),
            23 | 24 => {
                let spare = if number == 23 { &mut self.absent } else { &mut self.loose };
                let q = spare.pop().expect("a peer is left");
                record.neighbours.insert(q);
                return q.0;
            }
            25 => {
                let t = Topic(self.topics.pop().expect("a topic is left"));
                let knows = record.known_for(t).any(|q| *q == any_peer);
                if knows {
                    record.unlearn(t, any_peer);
                } else {
                    record.learn(t, any_peer);
                }
                return t.0;
            }
            _ => {
                record.pending.insert(message);
                record.seen.insert(message);
            }
        }
        0
    }

    fn planted(self, place: Peer, number: u8, detail: u8) -> Planted {
        (self.network, Checked { number, detail, place: place.0 as usize })
    }
}

/// A peer above p, which is not the last.
fn above(rng: &mut Rng, p: Peer) -> Peer {
    Peer(p.0 + 1 + rng.below(u32::from(31 - p.0)) as u8)
}

/// A state with this fault at record p, or near it where the fault asks for another record.
pub fn plant(rng: &mut Rng, several: Several, p: Peer) -> Planted {
    match several {
        Several::Of(number, whom) => of(rng, number, whom, p),
        Several::OfMany(number) => {
            let mut ground = Ground::any(rng, &[(p, number)]);
            let count = 2 + rng.below(3);
            let lowest = (0..count).map(|_| ground.plant(rng, number, p)).min().expect("at least two");
            ground.planted(p, number, lowest)
        }
        Several::AndHigher(number) => {
            let higher = number + 1 + rng.below(u32::from(26 - number)) as u8;
            let tested = if higher == 21 { 21 } else { number };
            let mut ground = Ground::any(rng, &[(p, tested)]);
            ground.plant(rng, higher, p);
            let detail = ground.plant(rng, number, p);
            ground.planted(p, number, detail)
        }
        Several::BeforeLower(number) => {
            let p = Peer(p.0.min(30));
            let (later, lower) = (above(rng, p), 20 + rng.below(u32::from(number - 20)) as u8);
            let mut ground = Ground::any(rng, &[(p, number), (later, lower)]);
            let detail = ground.plant(rng, number, p);
            ground.plant(rng, lower, later);
            ground.planted(p, number, detail)
        }
        Several::OddNeighbour => odd_neighbour(rng, Peer(p.0.min(30))),
        Several::AbsentAbove => absent_above(rng, p),
    }
}

fn of(rng: &mut Rng, number: u8, whom: u8, p: Peer) -> Planted {
    let q = Peer(whom);
    let p = if p == q { Peer(((u32::from(whom) + 1 + rng.below(31)) % 32) as u8) } else { p };
    let mut ground = match number {
        23 => Ground::new(rng, &[(p, number)], &[], &[q]),
        24 => Ground::new(rng, &[(p, number)], &[q], &[]),
        _ => Ground::any(rng, &[(p, number)]),
    };
    ground.topics = vec![whom];
    let detail = ground.plant(rng, number, p);
    ground.planted(p, number, detail)
}

/// p lists a later peer whose byte 0 is neither 0 nor 1; whether that one lists p does not matter.
fn odd_neighbour(rng: &mut Rng, p: Peer) -> Planted {
    let q = above(rng, p);
    let mut ground = Ground::new(rng, &[(p, 23)], &[], &[q]);
    let detail = ground.plant(rng, 23, p);
    let odd = ground.network.at_mut(q);
    odd.first = [2, 3, 129, 255][rng.below(4) as usize];
    if rng.chance(1, 2) {
        odd.neighbours.insert(p);
    }
    ground.planted(p, 23, detail)
}

fn absent_above(rng: &mut Rng, p: Peer) -> Planted {
    let others: Vec<Peer> = rng.shuffled(PEERS).into_iter().map(Peer).filter(|q| *q != p).collect();
    let (low, high) = (others[0].min(others[1]), others[0].max(others[1]));
    let mut ground = Ground::new(rng, &[(p, 23)], &[low], &[high]);
    ground.plant(rng, 24, p);
    let detail = ground.plant(rng, 23, p);
    ground.planted(p, 23, detail)
}
