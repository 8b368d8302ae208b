//! The receivers of a forward: the set that the engine answers, held to the states before and after.

mod numbers;

use numbers::Numbers;
use relay_host::raw::{self, Forwarded};
use relay_host::{Event, Joining, Message, Network, Number, Peer, Row, Set, Table, Topic};

fn peer(number: usize) -> Peer {
    Peer::new(number as u8).unwrap()
}

fn topic(number: usize) -> Topic {
    Topic::new(number as u8).unwrap()
}

fn message(number: usize) -> Message {
    Message::new(number as u8).unwrap()
}

/// The neighbours of a desk that subscribe to the message's topic and have it neither pending nor seen.
fn lacking(network: &Network, table: &Table, peer: Peer, message: Message) -> Set<Peer> {
    let (holding, seen) = network.holders(message);
    let subscribes = |other: &Peer| network.desk(*other).unwrap().subs.has(table.row(message).topic);
    let neighbours = network.desk(peer).unwrap().neighbours;
    let subscribers: Set<Peer> = neighbours.members().filter(subscribes).collect();
    subscribers.without(holding).without(seen)
}

/// Forwards a message and compares: the crate's answer with the bare one, the set with the states and the count with a run's tally.
/// What isn't pending there must be refused, with nobody in the set. Answers the receivers.
fn forwarded(network: &mut Network, table: &Table, peer: Peer, message: Message) -> Option<Set<Peer>> {
    let before = network.clone();
    let mut bytes = before.bytes().to_vec();
    let bare = raw::forward(&mut bytes, table.bytes(), peer.get(), message.get());
    let ran = before.clone().run(table, &[Event::Forward(peer, message)]);
    assert_eq!(u64::from(bare.deliveries), ran.tally.deliveries, "as in a run");
    let (holding, seen) = before.holders(message);
    let answer = network.forward(table, peer, message);
    assert_eq!(answer.is_ok(), holding.has(peer));
    assert!(bytes == network.bytes());
    let Ok(receivers) = answer else {
        let number = if before.desk(peer).is_some() { 13 } else { 8 };
        assert_eq!(bare, Forwarded { number, detail: 0, place: 0, deliveries: 0, receivers: 0 });
        assert!(*network == before);
        return None;
    };
    let after = network.holders(message).0;
    assert_eq!((u64::from(bare.receivers), bare.deliveries as usize), (receivers.word(), receivers.len()));
    assert_eq!(receivers, after.without(holding), "pending after it and not before");
    assert_eq!(receivers, lacking(&before, table, peer, message), "the neighbours that lack it");
    assert!(!receivers.has(peer) && receivers.common(seen).is_empty(), "neither the sender nor one that has seen it");
    Some(receivers)
}

impl Numbers {
    /// Each member with a chance of one in so many.
    fn some<N: Number>(&mut self, members: impl Iterator<Item = N>, chance: usize) -> Set<N> {
        members.filter(|_| self.below(chance) == 0).collect()
    }

    /// Some desks with links and topics 0 and 1 at random, and four messages, two of each topic, from desk 0.
    fn network(&mut self) -> (Network, Table) {
        let (mut table, mut network) = (Table::zero(), Network::blank());
        let topics = || [topic(0), topic(1)].into_iter();
        for number in (0..4).map(message) {
            table.set(number, Row { topic: topic(usize::from(number.get() % 2)), origin: peer(0) });
        }
        let desks = 2 + self.below(31);
        let events: Vec<Event> = (0..desks)
            .map(|desk| {
                let neighbours = self.some((0..desk).map(peer), 3);
                Event::Join(peer(desk), Joining { subs: self.some(topics(), 2), pubs: topics().collect(), neighbours })
            })
            .chain((0..4).map(|number| Event::Produce(peer(0), message(number))))
            .collect();
        assert_eq!(network.run(&table, &events).refusal, None);
        (network, table)
    }
}

#[test]
fn receivers_are_those_that_newly_hold_the_message() {
    let mut numbers = Numbers(1);
    let mut times = [0; 4];
    for _ in 0..40 {
        let (mut network, table) = numbers.network();
        while network.pending_pairs() > 0 {
            let (peer, message) = (peer(numbers.below(32)), message(numbers.below(4)));
            match forwarded(&mut network, &table, peer, message) {
                Some(receivers) => times[receivers.len().min(2)] += 1,
                None => times[3] += 1,
            }
        }
    }
    assert!(times.iter().all(|&times| times > 100), "nobody, one, more, refused: {times:?}");
}

#[test]
fn all_others_of_32_desks_are_receivers_once() {
    let every: Set<Topic> = Topic::all().collect();
    let join = |desk: usize| {
        let neighbours = (0..desk).map(peer).collect();
        Event::Join(peer(desk), Joining { subs: every, pubs: every, neighbours })
    };
    let (mut network, mut table) = (Network::blank(), Table::zero());
    table.set(message(63), Row { topic: topic(31), origin: peer(31) });
    let events: Vec<Event> = (0..32).map(join).chain([Event::Produce(peer(31), message(63))]).collect();
    assert_eq!(network.run(&table, &events).refusal, None);
    let first = forwarded(&mut network, &table, peer(31), message(63));
    assert_eq!(first, Some(Set::of_word(0x7fff_ffff)));
    for desk in 0..31 {
        assert_eq!(forwarded(&mut network, &table, peer(desk), message(63)), Some(Set::empty()), "{desk}");
    }
}
