//! Sound networks of many densities and shapes, and message tables that suit them.

use super::lists::{accepted, Mood};
use super::rng::Rng;
use super::table_or_zero;
use crate::model::events::{apply, Event, TABLE_SIZE};
use crate::model::state::{all_messages, all_peers, all_topics, Message, Network, Peer, PEERS};
use std::collections::{BTreeMap, BTreeSet};

/// Any sound network.
pub fn any(rng: &mut Rng) -> Network {
    match rng.below(12) {
        0 => Network::blank(),
        1..=4 => grown(rng),
        5..=8 => built(rng),
        9 | 10 => shaped(rng),
        _ => full(rng),
    }
}

/// Grown from the blank network by accepted events.
pub fn grown(rng: &mut Rng) -> Network {
    let mut network = Network::blank();
    for _ in 0..rng.below(12) {
        step(rng, &mut network, &[0; TABLE_SIZE], Mood::Growth);
    }
    let mood = Mood::any(rng);
    let bytes = table(rng, &network);
    for _ in 0..rng.below(150) {
        step(rng, &mut network, &bytes, mood);
    }
    network
}

fn step(rng: &mut Rng, network: &mut Network, bytes: &[u8], mood: Mood) {
    let table = table_or_zero(bytes);
    let event = Event::parse(&accepted(rng, network, &table, mood)).expect("an event");
    apply(network, &table, &event).expect("an event that is accepted");
}

/// Built record by record, at densities of its own for presence, links, topics and messages.
pub fn built(rng: &mut Rng) -> Network {
    let density = [0; 6].map(|_| rng.density());
    let mut network = Network::blank();
    for peer in all_peers() {
        if rng.chance(density[0].max(2), 16) {
            network.at_mut(peer).first = 1;
        }
    }
    for peer in all_peers() {
        for other in all_peers().filter(|other| *other < peer) {
            if rng.chance(density[1], 16) {
                link(&mut network, peer, other);
            }
        }
    }
    furnish(rng, &mut network, density[2], density[3], density[4], density[5]);
    network
}

/// A line, ring, star or tree over peers in any order, so that drains take many rounds.
pub fn shaped(rng: &mut Rng) -> Network {
    let order: Vec<Peer> = rng.shuffled(PEERS).into_iter().map(Peer).collect();
    let count = 2 + rng.below(31) as usize;
    let mut network = Network::blank();
    for peer in &order[..count] {
        network.at_mut(*peer).first = 1;
    }
    let shape = rng.below(4);
    for i in 1..count {
        let other = match shape {
            0 | 1 => i - 1,
            2 => 0,
            _ => rng.below(i as u32) as usize,
        };
        link(&mut network, order[i], order[other]);
    }
    if shape == 1 && count > 2 {
        link(&mut network, order[0], order[count - 1]);
    }
    let (subs, pubs) = ([8, 15, 16][rng.below(3) as usize], rng.density());
    let (pending, seen) = (rng.below(3), rng.below(2));
    furnish(rng, &mut network, subs, pubs, pending, seen);
    network
}

/// All 32 peers, every link or nearly so, most topics.
pub fn full(rng: &mut Rng) -> Network {
    let mut network = Network::blank();
    for peer in all_peers() {
        network.at_mut(peer).first = 1;
    }
    let links = 15 + rng.below(2);
    for peer in all_peers() {
        for other in all_peers().filter(|other| *other < peer) {
            if rng.chance(links, 16) {
                link(&mut network, peer, other);
            }
        }
    }
    let (pending, seen) = (rng.density(), rng.density());
    furnish(rng, &mut network, 16, 16, pending, seen);
    network
}

/// All 32 peers, each linked to every other, all subscribed to all, and one message pending at one of them.
pub fn about_to_flood(rng: &mut Rng) -> Network {
    let order: Vec<u8> = (0..PEERS).collect();
    let mut network = longest(&order);
    for (one, other) in all_peers().flat_map(|one| all_peers().map(move |other| (one, other))) {
        link(&mut network, one, other);
    }
    network.at_mut(Peer(0)).pending.clear();
    network.at_mut(Peer(rng.below(32) as u8)).pending.insert(Message(rng.below(64) as u8));
    tie(&mut network);
    network
}

/// The longest drain there is: a line of all peers with every message pending at its first one.
pub fn longest(order: &[u8]) -> Network {
    let mut network = Network::blank();
    for peer in order {
        network.at_mut(Peer(*peer)).first = 1;
        network.at_mut(Peer(*peer)).subs = all_topics().collect();
    }
    for pair in order.windows(2) {
        link(&mut network, Peer(pair[0]), Peer(pair[1]));
    }
    network.at_mut(Peer(order[0])).pending = all_messages().collect();
    tie(&mut network);
    network
}

/// Links two peers if both are present.
pub fn link(network: &mut Network, one: Peer, other: Peer) {
    if one != other && network.present(one) && network.present(other) {
        network.at_mut(one).neighbours.insert(other);
        network.at_mut(other).neighbours.insert(one);
    }
}

/// Gives the present peers topics and messages at these densities, and ties the known subscribers.
fn furnish(rng: &mut Rng, network: &mut Network, subs: u32, pubs: u32, pending: u32, seen: u32) {
    for peer in all_peers().filter(|peer| network.present(*peer)).collect::<Vec<_>>() {
        let record = network.at_mut(peer);
        record.subs = all_topics().filter(|_| rng.chance(subs, 16)).collect();
        record.pubs = all_topics().filter(|_| rng.chance(pubs, 16)).collect();
        for message in all_messages() {
            if rng.chance(pending, 16) {
                record.pending.insert(message);
            } else if rng.chance(seen, 16) {
                record.seen.insert(message);
            }
        }
    }
    tie(network);
}

/// Makes every present peer's known subscribers those that its neighbours' subscriptions ask for.
pub fn tie(network: &mut Network) {
    for peer in all_peers() {
        let mut known = BTreeMap::new();
        for topic in all_topics() {
            let subscribed = |q: &&Peer| network.at(**q).subs.contains(&topic);
            let peers: BTreeSet<Peer> =
                network.at(peer).neighbours.iter().filter(subscribed).copied().collect();
            if !peers.is_empty() {
                known.insert(topic, peers);
            }
        }
        network.at_mut(peer).known = known;
    }
}

/// A good message table: all zero, any, of few topics and origins, or with rows that can be produced.
pub fn table(rng: &mut Rng, network: &Network) -> Vec<u8> {
    let kind = rng.below(8);
    let mut bytes = vec![0; TABLE_SIZE];
    let (topic, origin) = (rng.below(32) as u8, rng.below(32) as u8);
    let present: Vec<Peer> = all_peers().filter(|peer| network.present(*peer)).collect();
    for row in bytes.chunks_mut(4) {
        match kind {
            0 => (),
            1 => row[..2].copy_from_slice(&[rng.below(32) as u8, rng.below(32) as u8]),
            2 => row[..2]
                .copy_from_slice(&[(topic + rng.below(2) as u8) % 32, (origin + rng.below(2) as u8) % 32]),
            _ => {
                let peer = rng.pick(&present).unwrap_or(Peer(origin));
                let pubs: Vec<_> = network.at(peer).pubs.iter().copied().collect();
                let published = if rng.chance(7, 8) { rng.pick(&pubs) } else { None };
                row[0] = published.map_or(rng.below(32) as u8, |topic| topic.0);
                row[1] = peer.0;
            }
        }
    }
    bytes
}
