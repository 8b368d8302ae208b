//! What occurred in a forward, called alone or in a run, in words: who received, who did not, and from whom a
//! refusal kept the message. entries.rs says which must occur.

use crate::cases::Case;
use crate::model::events::{apply, Event, Table, EVENT_SIZE, TABLE_SIZE};
use crate::model::state::{Message, Network, Peer, Topic, MESSAGES, PEERS, STATE_SIZE, TOPICS};
use crate::model::{Answer, Forwarded};
use crate::occurrences::{once, those, Occurrence};
use std::collections::BTreeSet;

/// A forward called alone.
pub fn of_forward(case: &Case, answer: &Forwarded, peer: u8, message: u8) -> Vec<Occurrence> {
    let (number, deliveries) = (answer.number, answer.deliveries);
    let outside = peer >= PEERS || message >= MESSAGES;
    let mut found = those(&[
        (number == 0 && deliveries == 0, "no delivery"),
        (deliveries == 1, "1 delivery"),
        ((2..=30).contains(&deliveries), "2 to 30"),
        (deliveries == 31, "31 deliveries"),
        (number == 7 && peer >= PEERS, "peer above 31"),
        (number == 7 && peer < PEERS, "message above 63"),
        (number >= 20 && outside, "unsound before a number out of range"),
    ]);
    let (state, table) = (&case.buffers[0], &case.buffers[1]);
    if state.len() == STATE_SIZE && table.len() == TABLE_SIZE {
        // What is out of range is taken for what is left of it within.
        let (peer, message) = (Peer(peer % PEERS), Message(message % MESSAGES));
        let topic = Topic(table[4 * message.0 as usize] % TOPICS);
        let network = Network::parse(state);
        found.extend(match number {
            0 => of_receivers(&known(&network, peer, topic), &answer.receivers),
            13 => kept_from(&network, peer, topic, message, "13"),
            _ if !network.at(peer).pending.contains(&message) => Vec::new(),
            20..=26 => kept_from(&network, peer, topic, message, "unsound"),
            _ => kept_from(&network, peer, topic, message, &number.to_string()),
        });
    }
    found
}

fn known(network: &Network, peer: Peer, topic: Topic) -> BTreeSet<Peer> {
    network.at(peer).known_for(topic).copied().collect()
}

/// An accepted forward: who of the known subscribers received.
pub fn of_receivers(known: &BTreeSet<Peer>, receivers: &BTreeSet<Peer>) -> Vec<Occurrence> {
    let some = !receivers.is_empty();
    those(&[
        (known.is_empty(), "nobody is known to subscribe"),
        (!known.is_empty() && !some, "all that are known have it"),
        (some && receivers != known, "some that are known receive"),
        (some && receivers == known, "all that are known receive"),
        (receivers.len() > 1, "several receive"),
        (receivers.contains(&Peer(0)), "0 receives"),
        (receivers.contains(&Peer(31)), "31 receives"),
    ])
}

/// A refused forward: would somebody have received?
fn kept_from(network: &Network, peer: Peer, topic: Topic, message: Message, why: &str) -> Vec<Occurrence> {
    let lacks = |q: &Peer| {
        let record = network.at(*q);
        !record.pending.contains(&message) && !record.seen.contains(&message)
    };
    if known(network, peer, topic).iter().any(lacks) {
        vec![once(&format!("{why} keeps it from somebody"))]
    } else {
        Vec::new()
    }
}

/// The forwards of a run, by the events that were accepted and the one that was refused. Only short lists are
/// gone through again.
pub fn of_run(case: &Case, answer: &Answer) -> Vec<Occurrence> {
    let mut found = Vec::new();
    if answer.accepted > 100 || answer.accepted == 0 && answer.number != 13 {
        return found;
    }
    let mut network = Network::parse(&case.buffers[0]);
    let table = Table::parse(&case.buffers[1]).expect("a good table");
    let mut events = case.buffers[2].chunks(EVENT_SIZE).map(Event::parse);
    for event in events.by_ref().take(answer.accepted).map(|event| event.expect("an event")) {
        let before = match event {
            Event::Forward(peer, message) => Some(known(&network, peer, table.topic(message))),
            _ => None,
        };
        let receivers = apply(&mut network, &table, &event).expect("an accepted event");
        found.extend(before.into_iter().flat_map(|known| of_receivers(&known, &receivers)));
    }
    if let (13, Some(Ok(Event::Forward(peer, message)))) = (answer.number, events.next()) {
        found.extend(kept_from(&network, peer, table.topic(message), message, "13"));
    }
    found
}
