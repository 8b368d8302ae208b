//! The message table, the seven events, their refusals and their effects.

use super::state::{all_peers, set_from, Message, Network, Peer, Record, Topic, MESSAGES, PEERS, TOPICS};
use std::collections::BTreeSet;

pub const TABLE_SIZE: usize = 256;
pub const EVENT_SIZE: usize = 16;

/// "A lent table of 64 rows gives topic and origin."
#[derive(Clone, Debug)]
pub struct Table {
    rows: Vec<(Topic, Peer)>,
}

impl Table {
    /// Reads 256 bytes. The error is the place of number 4: "a message row has topic or origin above 31,
    /// or bytes 2-3 not zero", "lowest such row".
    pub fn parse(bytes: &[u8]) -> Result<Table, usize> {
        assert_eq!(bytes.len(), TABLE_SIZE);
        let mut rows = Vec::new();
        for (place, row) in bytes.chunks(4).enumerate() {
            if row[0] >= TOPICS || row[1] >= PEERS || row[2] != 0 || row[3] != 0 {
                return Err(place);
            }
            rows.push((Topic(row[0]), Peer(row[1])));
        }
        Ok(Table { rows })
    }

    pub fn topic(&self, message: Message) -> Topic {
        self.rows[message.0 as usize].0
    }

    pub fn origin(&self, message: Message) -> Peer {
        self.rows[message.0 as usize].1
    }
}

/// "An event read is one of seven kinds and carries only its own fields."
#[derive(Clone, Debug, PartialEq, Eq)]
pub enum Event {
    Skip,
    Produce(Peer, Message),
    Forward(Peer, Message),
    Subscribe(Peer, BTreeSet<Topic>),
    Unsubscribe(Peer, BTreeSet<Topic>),
    Leave(Peer),
    Join { peer: Peer, subs: BTreeSet<Topic>, pubs: BTreeSet<Topic>, neighbours: BTreeSet<Peer> },
}

/// The bytes that a kind uses besides its code, from the column "fields used" and the record
/// "0 code; 1 peer; 2 message; 3 zero; 4-7 subs or topics; 8-11 pubs; 12-15 neighbours".
pub fn used_bytes(code: u8) -> &'static [usize] {
    match code {
        0 => &[],
        1 | 2 => &[1, 2],
        3 | 4 => &[1, 4, 5, 6, 7],
        5 => &[1],
        6 => &[1, 4, 5, 6, 7, 8, 9, 10, 11, 12, 13, 14, 15],
        _ => panic!("no such kind"),
    }
}

impl Event {
    /// "each tested 6, 7, then its conditions". The error is that number.
    pub fn parse(bytes: &[u8]) -> Result<Event, u8> {
        let code = bytes[0];
        // "Codes 7 to 255 are refused."
        if code >= 7 {
            return Err(6);
        }
        // "peer above 31, message above 63, or an unused byte not zero". A peer or message that the kind
        // does not use is an unused byte.
        let used = used_bytes(code);
        if (1..EVENT_SIZE).any(|i| !used.contains(&i) && bytes[i] != 0) {
            return Err(7);
        }
        if bytes[1] >= PEERS || bytes[2] >= MESSAGES {
            return Err(7);
        }
        let peer = Peer(bytes[1]);
        let message = Message(bytes[2]);
        let topics = set_from(&bytes[4..8]);
        Ok(match code {
            0 => Event::Skip,
            1 => Event::Produce(peer, message),
            2 => Event::Forward(peer, message),
            3 => Event::Subscribe(peer, topics),
            4 => Event::Unsubscribe(peer, topics),
            5 => Event::Leave(peer),
            _ => Event::Join {
                peer,
                subs: topics,
                pubs: set_from(&bytes[8..12]),
                neighbours: set_from(&bytes[12..16]),
            },
        })
    }
}

/// "Message m is new when no present peer has it pending or seen"
pub fn is_new(network: &Network, message: Message) -> bool {
    all_peers()
        .map(|p| network.at(p))
        .filter(|record| record.present())
        .all(|record| !record.pending.contains(&message) && !record.seen.contains(&message))
}

/// What an event that is done answers: the receivers of its message, whom only a forward has. The error is
/// the number by which it is refused.
pub type Done = Result<BTreeSet<Peer>, u8>;

/// Done, with no message that anyone receives.
const NOBODY: Done = Ok(BTreeSet::new());

/// Does one event, or says by which number it is refused and changes nothing.
pub fn apply(network: &mut Network, table: &Table, event: &Event) -> Done {
    match event {
        Event::Skip => NOBODY,
        Event::Produce(peer, message) => produce(network, table, *peer, *message),
        Event::Forward(peer, message) => forward(network, table, *peer, *message),
        Event::Subscribe(peer, topics) => subscribe(network, *peer, topics),
        Event::Unsubscribe(peer, topics) => unsubscribe(network, *peer, topics),
        Event::Leave(peer) => leave(network, *peer),
        Event::Join { peer, subs, pubs, neighbours } => join(network, *peer, subs, pubs, neighbours),
    }
}

/// "8, 10, 11, 12 | message becomes pending at its origin"
fn produce(network: &mut Network, table: &Table, peer: Peer, message: Message) -> Done {
    if !network.present(peer) {
        return Err(8);
    }
    if table.origin(message) != peer {
        return Err(10);
    }
    if !network.at(peer).pubs.contains(&table.topic(message)) {
        return Err(11);
    }
    if !is_new(network, message) {
        return Err(12);
    }
    network.at_mut(peer).pending.insert(message);
    NOBODY
}

/// "Forward of m by p: m moves from pending to seen at p; then each known subscriber of m's topic at p
/// gets m pending, unless m is pending or seen there. Each peer so changed is one delivery", and these peers
/// are E2's receivers. "origin and previous sender have no exemption."
pub fn forward(network: &mut Network, table: &Table, peer: Peer, message: Message) -> Done {
    if !network.present(peer) {
        return Err(8);
    }
    if !network.at(peer).pending.contains(&message) {
        return Err(13);
    }
    network.at_mut(peer).pending.remove(&message);
    network.at_mut(peer).seen.insert(message);
    let mut receivers = BTreeSet::new();
    let subscribers: Vec<Peer> = network.at(peer).known_for(table.topic(message)).copied().collect();
    for subscriber in subscribers {
        let record = network.at_mut(subscriber);
        if !record.pending.contains(&message) && !record.seen.contains(&message) {
            record.pending.insert(message);
            receivers.insert(subscriber);
        }
    }
    Ok(receivers)
}

/// "8 | topics join subs; neighbours' records follow". "An empty topic set is allowed, as is subscribing
/// twice."
fn subscribe(network: &mut Network, peer: Peer, topics: &BTreeSet<Topic>) -> Done {
    if !network.present(peer) {
        return Err(8);
    }
    network.at_mut(peer).subs.extend(topics);
    for neighbour in network.at(peer).neighbours.clone() {
        for topic in topics {
            network.at_mut(neighbour).learn(*topic, peer);
        }
    }
    NOBODY
}

/// "8 | topics leave subs; neighbours' records follow"
fn unsubscribe(network: &mut Network, peer: Peer, topics: &BTreeSet<Topic>) -> Done {
    if !network.present(peer) {
        return Err(8);
    }
    network.at_mut(peer).subs.retain(|topic| !topics.contains(topic));
    for neighbour in network.at(peer).neighbours.clone() {
        for topic in topics {
            network.at_mut(neighbour).unlearn(*topic, peer);
        }
    }
    NOBODY
}

/// "8, 14 | record becomes zero; neighbours drop the peer and its subscriptions"
fn leave(network: &mut Network, peer: Peer) -> Done {
    if !network.present(peer) {
        return Err(8);
    }
    if !network.at(peer).pending.is_empty() {
        return Err(14);
    }
    let gone = std::mem::take(network.at_mut(peer));
    for neighbour in gone.neighbours {
        network.at_mut(neighbour).neighbours.remove(&peer);
        for topic in &gone.subs {
            network.at_mut(neighbour).unlearn(*topic, peer);
        }
    }
    NOBODY
}

/// "9, 15, 16 | record made with nothing pending or seen; both sides record link and subscriptions"
fn join(
    network: &mut Network,
    peer: Peer,
    subs: &BTreeSet<Topic>,
    pubs: &BTreeSet<Topic>,
    neighbours: &BTreeSet<Peer>,
) -> Done {
    if network.present(peer) {
        return Err(9);
    }
    if neighbours.contains(&peer) {
        return Err(15);
    }
    if neighbours.iter().any(|neighbour| !network.present(*neighbour)) {
        return Err(16);
    }
    let mut record = Record {
        first: 1,
        pubs: pubs.clone(),
        subs: subs.clone(),
        neighbours: neighbours.clone(),
        ..Record::default()
    };
    for neighbour in neighbours {
        let other = network.at_mut(*neighbour);
        other.neighbours.insert(peer);
        for topic in subs {
            other.learn(*topic, peer);
        }
        for topic in &other.subs {
            record.learn(*topic, *neighbour);
        }
    }
    *network.at_mut(peer) = record;
    NOBODY
}
