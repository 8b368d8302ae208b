//! Peer records, reading and writing them, sound or not.

use std::collections::{BTreeMap, BTreeSet};

pub const PEERS: u8 = 32;
pub const TOPICS: u8 = 32;
pub const MESSAGES: u8 = 64;
pub const RECORD_SIZE: usize = 160;
pub const STATE_SIZE: usize = 5120;

/// "A peer number, a topic number and a message number are separate sorts"
#[derive(Clone, Copy, Debug, PartialEq, Eq, PartialOrd, Ord)]
pub struct Peer(pub u8);
#[derive(Clone, Copy, Debug, PartialEq, Eq, PartialOrd, Ord)]
pub struct Topic(pub u8);
#[derive(Clone, Copy, Debug, PartialEq, Eq, PartialOrd, Ord)]
pub struct Message(pub u8);

/// What the three sorts share: each is a number that can stand as a bit of a set.
pub trait Number: Copy + Ord {
    fn of(value: u8) -> Self;
    fn value(self) -> u8;
}

impl Number for Peer {
    fn of(value: u8) -> Peer {
        Peer(value)
    }
    fn value(self) -> u8 {
        self.0
    }
}

impl Number for Topic {
    fn of(value: u8) -> Topic {
        Topic(value)
    }
    fn value(self) -> u8 {
        self.0
    }
}

impl Number for Message {
    fn of(value: u8) -> Message {
        Message(value)
    }
    fn value(self) -> u8 {
        self.0
    }
}

/// "Peers 0 to 31"
pub fn all_peers() -> impl Iterator<Item = Peer> {
    (0..PEERS).map(Peer)
}

/// "topics 0 to 31"
pub fn all_topics() -> impl Iterator<Item = Topic> {
    (0..TOPICS).map(Topic)
}

/// "messages 0 to 63"
pub fn all_messages() -> impl Iterator<Item = Message> {
    (0..MESSAGES).map(Message)
}

/// "A set of these is a word in which bit i stands for number i", and "numbers are little-endian":
/// bit i of the word is bit i mod 8 of byte i div 8.
pub fn set_from<N: Number>(bytes: &[u8]) -> BTreeSet<N> {
    let count = 8 * bytes.len();
    (0..count).filter(|i| bytes[i / 8] >> (i % 8) & 1 == 1).map(|i| N::of(i as u8)).collect()
}

/// The reverse of `set_from`.
pub fn set_into<N: Number>(set: &BTreeSet<N>, bytes: &mut [u8]) {
    bytes.fill(0);
    for number in set {
        let i = number.value() as usize;
        bytes[i / 8] |= 1 << (i % 8);
    }
}

/// A set of peers as the word that an answer has: "bit i stands for number i".
pub fn peers_of(word: u32) -> BTreeSet<Peer> {
    set_from(&word.to_le_bytes())
}

/// The reverse of `peers_of`.
pub fn word_of(peers: &BTreeSet<Peer>) -> u32 {
    let mut bytes = [0; 4];
    set_into(peers, &mut bytes);
    u32::from_le_bytes(bytes)
}

/// One peer record as it stands in the bytes, sound or not.
#[derive(Clone, Debug, PartialEq, Eq, Default)]
pub struct Record {
    /// Byte 0: "0 present (0 or 1)".
    pub first: u8,
    /// Bytes 1 to 3: "1-3 zero".
    pub gap: [u8; 3],
    pub pubs: BTreeSet<Topic>,
    pub subs: BTreeSet<Topic>,
    pub neighbours: BTreeSet<Peer>,
    pub pending: BTreeSet<Message>,
    pub seen: BTreeSet<Message>,
    /// "for each topic, the known subscribers among its neighbours". A topic with none has no entry,
    /// so that equal records are equal values.
    pub known: BTreeMap<Topic, BTreeSet<Peer>>,
}

impl Record {
    /// "A peer is present when byte 0 is 1."
    pub fn present(&self) -> bool {
        self.first == 1
    }

    /// The known subscribers of a topic, rising.
    pub fn known_for(&self, topic: Topic) -> impl Iterator<Item = &Peer> {
        self.known.get(&topic).into_iter().flatten()
    }

    pub fn learn(&mut self, topic: Topic, peer: Peer) {
        self.known.entry(topic).or_default().insert(peer);
    }

    pub fn unlearn(&mut self, topic: Topic, peer: Peer) {
        if let Some(peers) = self.known.get_mut(&topic) {
            peers.remove(&peer);
            if peers.is_empty() {
                self.known.remove(&topic);
            }
        }
    }

    /// "4-7 pubs; 8-11 subs; 12-15 neighbours; 16-23 pending; 24-31 seen; 32-159 known subscribers for
    /// topics 0 to 31, 4 bytes each"
    fn parse(bytes: &[u8]) -> Record {
        let mut known = BTreeMap::new();
        for topic in all_topics() {
            let start = 32 + 4 * topic.0 as usize;
            let peers: BTreeSet<Peer> = set_from(&bytes[start..start + 4]);
            if !peers.is_empty() {
                known.insert(topic, peers);
            }
        }
        Record {
            first: bytes[0],
            gap: [bytes[1], bytes[2], bytes[3]],
            pubs: set_from(&bytes[4..8]),
            subs: set_from(&bytes[8..12]),
            neighbours: set_from(&bytes[12..16]),
            pending: set_from(&bytes[16..24]),
            seen: set_from(&bytes[24..32]),
            known,
        }
    }

    fn write(&self, bytes: &mut [u8]) {
        bytes.fill(0);
        bytes[0] = self.first;
        bytes[1..4].copy_from_slice(&self.gap);
        set_into(&self.pubs, &mut bytes[4..8]);
        set_into(&self.subs, &mut bytes[8..12]);
        set_into(&self.neighbours, &mut bytes[12..16]);
        set_into(&self.pending, &mut bytes[16..24]);
        set_into(&self.seen, &mut bytes[24..32]);
        for (topic, peers) in &self.known {
            let start = 32 + 4 * topic.0 as usize;
            set_into(peers, &mut bytes[start..start + 4]);
        }
    }
}

#[derive(Clone, Debug, PartialEq, Eq)]
pub struct Network {
    records: Vec<Record>,
}

impl Network {
    /// "A blank network is 5,120 zero bytes."
    pub fn blank() -> Network {
        Network { records: vec![Record::default(); PEERS as usize] }
    }

    /// "A state is 32 peer records, 5,120 bytes". Keeps every bit, so that unsound bytes come back too.
    pub fn parse(bytes: &[u8]) -> Network {
        assert_eq!(bytes.len(), STATE_SIZE);
        Network { records: bytes.chunks(RECORD_SIZE).map(Record::parse).collect() }
    }

    pub fn bytes(&self) -> Vec<u8> {
        let mut bytes = vec![0; STATE_SIZE];
        for (record, chunk) in self.records.iter().zip(bytes.chunks_mut(RECORD_SIZE)) {
            record.write(chunk);
        }
        bytes
    }

    pub fn at(&self, peer: Peer) -> &Record {
        &self.records[peer.0 as usize]
    }

    pub fn at_mut(&mut self, peer: Peer) -> &mut Record {
        &mut self.records[peer.0 as usize]
    }

    pub fn present(&self, peer: Peer) -> bool {
        self.at(peer).present()
    }

    /// The pairs of peer and message pending there, "peers rising, messages rising within a peer".
    pub fn pending_pairs(&self) -> Vec<(Peer, Message)> {
        let mut pairs = Vec::new();
        for peer in all_peers() {
            pairs.extend(self.at(peer).pending.iter().map(|message| (peer, *message)));
        }
        pairs
    }
}
