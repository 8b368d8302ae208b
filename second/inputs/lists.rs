//! Event lists: accepted events in many moods, then one that is refused by a chosen number, then others.

use super::refusals::{refused, walked};
use super::rng::Rng;
use crate::model::events::{apply, is_new, Event, Table};
use crate::model::state::{all_messages, all_peers, Message, Network, Peer};

pub type Bytes = [u8; 16];

/// What a list is mostly made of.
#[derive(Clone, Copy, PartialEq, Eq)]
pub enum Mood {
    Growth,
    Flood,
    Topics,
    Churn,
    Even,
}

impl Mood {
    pub fn any(rng: &mut Rng) -> Mood {
        [Mood::Growth, Mood::Flood, Mood::Flood, Mood::Topics, Mood::Churn, Mood::Even][rng.below(6) as usize]
    }

    /// The weights of the seven kinds.
    fn weights(self) -> [u32; 7] {
        match self {
            Mood::Growth => [0, 1, 1, 1, 0, 0, 12],
            Mood::Flood => [1, 8, 20, 1, 1, 1, 2],
            Mood::Topics => [1, 2, 3, 8, 8, 1, 2],
            Mood::Churn => [1, 2, 4, 1, 1, 8, 8],
            Mood::Even => [1, 1, 1, 1, 1, 1, 1],
        }
    }
}

pub fn event(code: u8, peer: Peer, message: Message, words: [u32; 3]) -> Bytes {
    let mut bytes = [0; 16];
    bytes[..3].copy_from_slice(&[code, peer.0, message.0]);
    for (word, place) in words.iter().zip([4, 8, 12]) {
        bytes[place..place + 4].copy_from_slice(&word.to_le_bytes());
    }
    bytes
}

pub fn with_message(code: u8, peer: Peer, message: Message) -> Bytes {
    event(code, peer, message, [0; 3])
}

pub fn with_words(code: u8, peer: Peer, words: [u32; 3]) -> Bytes {
    event(code, peer, Message(0), words)
}

pub fn peers_where(network: &Network, present: bool) -> Vec<Peer> {
    all_peers().filter(|peer| network.present(*peer) == present).collect()
}

pub fn word_of(peers: &[Peer]) -> u32 {
    peers.iter().map(|peer| 1 << peer.0).sum()
}

pub fn any_peer(rng: &mut Rng) -> Peer {
    Peer(rng.below(32) as u8)
}

pub fn any_message(rng: &mut Rng) -> Message {
    Message(rng.below(64) as u8)
}

/// Messages that pass this test, from any place on, so that low numbers are not preferred.
pub fn message_where(rng: &mut Rng, test: impl Fn(Message) -> bool) -> Option<Message> {
    let start = rng.below(64) as u8;
    all_messages().map(|m| Message((m.0 + start) % 64)).find(|m| test(*m))
}

/// May this peer produce m, newness aside?
pub fn publishes(network: &Network, table: &Table, m: Message) -> bool {
    let origin = network.at(table.origin(m));
    origin.present() && origin.pubs.contains(&table.topic(m))
}

/// An accepted event of this kind, if the network has one.
pub fn accepted_of(rng: &mut Rng, network: &Network, table: &Table, code: u8) -> Option<Bytes> {
    let present = peers_where(network, true);
    match code {
        0 => Some([0; 16]),
        1 => {
            let m = message_where(rng, |m| publishes(network, table, m) && is_new(network, m))?;
            Some(with_message(1, table.origin(m), m))
        }
        2 => rng.pick(&network.pending_pairs()).map(|(peer, m)| with_message(2, peer, m)),
        3 | 4 => rng.pick(&present).map(|peer| with_words(code, peer, [rng.word(), 0, 0])),
        5 => {
            let idle: Vec<Peer> = present.into_iter().filter(|p| network.at(*p).pending.is_empty()).collect();
            rng.pick(&idle).map(|peer| with_words(5, peer, [0; 3]))
        }
        _ => {
            let peer = rng.pick(&peers_where(network, false))?;
            let neighbours = rng.word() & word_of(&present);
            Some(with_words(6, peer, [rng.word(), rng.word(), neighbours]))
        }
    }
}

/// An accepted event of a kind that the mood picks.
pub fn accepted(rng: &mut Rng, network: &Network, table: &Table, mood: Mood) -> Bytes {
    let weights = mood.weights();
    for _ in 0..4 {
        let mut ticket = rng.below(weights.iter().sum());
        let mut code = 0;
        while ticket >= weights[code] {
            ticket -= weights[code];
            code += 1;
        }
        if let Some(bytes) = accepted_of(rng, network, table, code as u8) {
            return bytes;
        }
    }
    [0; 16]
}

pub fn any_bytes(rng: &mut Rng) -> Bytes {
    let mut bytes = [0; 16];
    bytes.copy_from_slice(&rng.bytes(16));
    bytes
}

/// An event of any kind with fields in range and no regard to the network.
pub fn blind(rng: &mut Rng) -> Bytes {
    let (peer, message) = (any_peer(rng), any_message(rng));
    let words = [rng.word(), rng.word(), rng.word()];
    match rng.below(7) as u8 {
        0 => [0; 16],
        code @ (1 | 2) => with_message(code, peer, message),
        5 => with_words(5, peer, [0; 3]),
        6 => with_words(6, peer, words),
        code => with_words(code, peer, [words[0], 0, 0]),
    }
}

/// A list of at most `most` accepted events, then in most lists one refused by a number from 6 to 16,
/// then a few that must never be looked at. With a step, the refused one is that of the walk.
pub fn events(rng: &mut Rng, mut network: Network, table: &Table, most: u32, step: Option<usize>) -> Vec<u8> {
    let mood = Mood::any(rng);
    let mut bytes = Vec::new();
    for _ in 0..rng.below(most + 1) {
        let next = accepted(rng, &network, table, mood);
        apply(&mut network, table, &Event::parse(&next).expect("an event")).expect("an accepted event");
        bytes.extend(next);
    }
    if let Some(step) = step {
        bytes.extend(walked(rng, &network, table, step));
    } else if rng.chance(4, 5) {
        let number = 6 + rng.below(11) as u8;
        let end = refused(rng, &network, table, number).unwrap_or(blind(rng));
        bytes.extend(end);
    }
    for _ in 0..rng.below(4) {
        let next = if rng.chance(1, 3) { any_bytes(rng) } else { blind(rng) };
        bytes.extend(next);
    }
    bytes
}
