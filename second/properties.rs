//! General statements of 00 and 01, tested on the model for seeded networks.

use crate::inputs::damage::{exact, EXACT};
use crate::inputs::lists::{accepted, Mood};
use crate::inputs::networks::{any, longest, table};
use crate::inputs::refusals::refused;
use crate::inputs::rng::Rng;
use crate::inputs::several::{plant, SEVERAL};
use crate::inputs::table_or_zero;
use crate::model::calls::{self, check, drain_network, image_of, round};
use crate::model::events::{apply, forward, Event, Table};
use crate::model::state::{all_messages, all_peers, Message, Network, Peer};
use crate::observed::Forward;
use std::collections::{BTreeMap, BTreeSet};

pub fn all() {
    let mut rng = Rng::new(1);
    for _ in 0..400 {
        let network = any(&mut rng);
        let bytes = table(&mut rng, &network);
        let table = table_or_zero(&bytes);
        bytes_and_back(&mut rng, &network);
        events_keep_sound(&mut rng, network.clone(), &table);
        refused_events_change_nothing(&mut rng, &network, &table);
        forwards_reach(&mut rng, &network, &table);
        receivers_as_observed(&mut rng, &network, &bytes);
    }
    println!("events: sound after each, the tally adds up, the image steps as tabled");
    println!("forwards: one pair fewer each, the end as by chains, the rounds as by their length");
    println!("receivers: those who newly hold the message, by the bytes alone; nobody if refused");
    damage_is_exact(&mut rng);
    lowest_comes_first(&mut rng);
    longest_drain();
}

/// "Reading then writing a sound state gives the same bytes, and the reverse."
fn bytes_and_back(rng: &mut Rng, network: &Network) {
    assert_eq!(network.lowest_fault(), None);
    assert_eq!(Network::parse(&network.bytes()), *network);
    let bytes = rng.bytes(5120);
    assert_eq!(Network::parse(&bytes).bytes(), bytes, "no bit of unsound bytes is lost either");
}

/// "Soundness holds after every accepted event." "Pending pairs at the end = pending pairs at the start +
/// produced + deliveries - forwards." And the table of image steps.
fn events_keep_sound(rng: &mut Rng, mut network: Network, table: &Table) {
    let mood = Mood::any(rng);
    for _ in 0..20 {
        let event = Event::parse(&accepted(rng, &network, table, mood)).expect("an event");
        let before = network.clone();
        let receivers = apply(&mut network, table, &event).expect("an accepted event");
        assert_eq!(network.lowest_fault(), None, "sound after {event:?}");
        let (more, fewer) = match event {
            Event::Produce(..) => (1, 0),
            Event::Forward(..) => (receivers.len(), 1),
            _ => (0, 0),
        };
        assert_eq!(network.pending_pairs().len() + fewer, before.pending_pairs().len() + more);
        image_step(&before, &event, &network);
    }
}

/// The row of "Image steps" for this event, from the image before it.
fn image_step(before: &Network, event: &Event, after: &Network) {
    let mut expected = image_of(before);
    match event {
        Event::Skip | Event::Produce(..) => (),
        Event::Forward(_, m) => {
            if !after.pending_pairs().iter().any(|(_, other)| other == m) {
                // "one partial broadcast of m to all who have seen it; m was new in the image"
                for peer in all_peers() {
                    assert!(!expected.at(peer).seen.contains(m), "new in the image");
                    if after.at(peer).seen.contains(m) {
                        expected.at_mut(peer).seen.insert(*m);
                    }
                }
            }
        }
        Event::Subscribe(p, topics) => expected.at_mut(*p).subs.extend(topics),
        Event::Unsubscribe(p, topics) => expected.at_mut(*p).subs.retain(|topic| !topics.contains(topic)),
        Event::Leave(p) => *expected.at_mut(*p) = Default::default(),
        Event::Join { peer, subs, pubs, .. } => {
            let record = expected.at_mut(*peer);
            (record.first, record.subs, record.pubs) = (1, subs.clone(), pubs.clone());
        }
    }
    assert!(image_of(after) == expected, "image after {event:?}");
}

/// An event made to be refused by a number is refused by that number, "exactly when its conditions fail".
fn refused_events_change_nothing(rng: &mut Rng, network: &Network, table: &Table) {
    for number in 6..=16 {
        if let Some(bytes) = refused(rng, network, table, number) {
            let mut after = network.clone();
            let found = Event::parse(&bytes).and_then(|event| apply(&mut after, table, &event));
            assert_eq!(found, Err(number), "{bytes:?}");
            assert!(after == *network, "unchanged");
        }
    }
}

/// "the count of unseen pairs, present desk with message"
fn unseen_pairs(network: &Network) -> usize {
    all_peers().filter(|p| network.present(*p)).map(|p| 64 - network.at(p).seen.len()).sum()
}

/// For each desk reached "by a chain of links from a pending holder, each later desk subscribed to its
/// topic and not having seen it at the start": the links of the shortest such chain, "0 for a holder".
fn chains(start: &Network, table: &Table, m: Message) -> BTreeMap<Peer, usize> {
    let mut lengths = BTreeMap::new();
    let mut edge: Vec<Peer> = all_peers().filter(|p| start.at(*p).pending.contains(&m)).collect();
    let mut links = 0;
    while !edge.is_empty() {
        lengths.extend(edge.iter().map(|p| (*p, links)));
        let next: BTreeSet<Peer> = edge.iter().flat_map(|p| start.at(*p).neighbours.clone()).collect();
        let follows = |q: &Peer| {
            let record = start.at(*q);
            record.subs.contains(&table.topic(m)) && !record.seen.contains(&m) && !lengths.contains_key(q)
        };
        edge = next.into_iter().filter(follows).collect();
        links += 1;
    }
    lengths
}

/// E2's statements on single forwards, accepted and refused, as the engine's answers are tested.
fn receivers_as_observed(rng: &mut Rng, start: &Network, table: &[u8]) {
    let mut state = start.bytes();
    for _ in 0..20 {
        let any = (Peer(rng.below(34) as u8), Message(rng.below(66) as u8));
        let pending = rng.pick(&Network::parse(&state).pending_pairs());
        let (Peer(peer), Message(message)) = pending.filter(|_| rng.chance(2, 3)).unwrap_or(any);
        let before = state.clone();
        let answer = calls::forward(&mut state, table, peer, message);
        let forward = Forward { peer, message, table, before: &before, after: &state, answer: &answer };
        assert_eq!(forward.wrong(), [""; 0]);
    }
}

/// Demand 3 of 00.
fn forwards_reach(rng: &mut Rng, start: &Network, table: &Table) {
    // In any order, each accepted forward lowers the count by exactly one.
    let mut network = start.clone();
    let mut made = 0;
    while let Some((peer, m)) = rng.pick(&network.pending_pairs()) {
        let before = unseen_pairs(&network);
        forward(&mut network, table, peer, m).expect("a pending pair");
        assert_eq!(unseen_pairs(&network) + 1, before);
        made += 1;
    }
    // "The end state is the same for every order."
    let mut drained = start.clone();
    let (forwards, rounds, quiet) = drain_network(&mut drained, table, u32::MAX);
    assert!(drained == network && forwards == made && quiet);
    assert!(forwards <= 2048 && rounds <= 32);
    let lengths: Vec<BTreeMap<Peer, usize>> = all_messages().map(|m| chains(start, table, m)).collect();
    // "a desk whose shortest such chain has d links has seen the message after d+1 full rounds and not
    // after d", after every number of rounds up to the end.
    let mut network = start.clone();
    for finished in 0..=rounds as usize {
        for (peer, m) in all_peers().flat_map(|p| all_messages().map(move |m| (p, m))) {
            let chain = lengths[m.0 as usize].get(&peer).is_some_and(|links| finished >= links + 1);
            let seen = start.at(peer).seen.contains(&m) || chain;
            assert_eq!(network.at(peer).seen.contains(&m), seen, "after {finished} rounds");
        }
        round(&mut network, table, u32::MAX);
    }
    assert!(network == drained);
}

/// Each damage breaks its own rule at its own record and nothing else.
fn damage_is_exact(rng: &mut Rng) {
    for rule in EXACT {
        for case in 0..60 {
            let p = Peer([0, 31, rng.below(32) as u8][case % 3]);
            let (network, fault) = exact(rng, rule, p);
            let lowest = |q: Peer| network.faults(q).first().map(|why| (q, *why));
            let faults: Vec<_> = all_peers().filter_map(lowest).collect();
            assert_eq!(faults, [(p, fault)], "{rule:?}");
        }
    }
    println!("soundness: each rule is broken alone, at record 0, 31 and others");
}

/// What was planted is what is answered: the lowest record, its lowest rule, the lowest at fault.
fn lowest_comes_first(rng: &mut Rng) {
    for several in SEVERAL {
        for case in 0..60 {
            let p = Peer([0, 31, rng.below(32) as u8][case % 3]);
            let (network, answer) = plant(rng, several, p);
            assert_eq!(check(&network.bytes()), answer, "{several:?} at {p:?}");
        }
    }
    println!("soundness: the lowest record, its lowest rule, the lowest at fault, as planted");
}

/// "At most 2,048 forwards and 32 rounds are ever needed": a line of 32 with 64 messages needs them all.
fn longest_drain() {
    let order: Vec<u8> = (0..32).rev().collect();
    let answer = drain_network(&mut longest(&order), &table_or_zero(&[0; 256]), 2048);
    assert_eq!(answer, (2048, 32, true));
    println!("the longest drain: 2,048 forwards in 32 rounds");
}
