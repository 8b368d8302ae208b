//! Networks, message tables and images: bytes that the engine has accepted, with names for what they hold.

use crate::event::Event;
use crate::numbers::{sealed::Sort, Message, Number, Peer, Set, Topic};
use crate::raw::{self, Tally};
use crate::refusal::{Reason, Refusal};
use std::fmt;

pub(crate) const STATE: usize = 5120;
const TABLE: usize = 256;
const PEER: usize = 160;
const ROW: usize = 4;

/// A budget that is always enough for a drain.
pub const ENOUGH: u32 = 2048;

/// A sound network. It starts blank or by a read that the engine accepted, and only the engine changes it.
#[derive(Clone, PartialEq, Eq)]
pub struct Network {
    bytes: Box<[u8; STATE]>,
}

/// How a run went: the accepted events' count and tally, and why it stopped, if it did.
///
/// ```compile_fail
/// #![deny(unused_must_use)]
/// relay_host::Network::blank().run(&relay_host::Table::zero(), &[]);
/// ```
#[must_use = "the refusal says whether the run stopped"]
#[derive(Clone, Copy, Debug, PartialEq, Eq)]
pub struct Run {
    pub accepted: usize,
    pub tally: Tally,
    pub refusal: Option<Refusal>,
}

/// How a drain went: the forwards made, the rounds finished, and whether nothing is pending.
///
/// ```
/// # fn main() -> Result<(), relay_host::Refusal> {
/// #![deny(unused_must_use)]
/// let _ = relay_host::Network::blank().drain(&relay_host::Table::zero(), 1)?;
/// let _ = relay_host::Network::blank().run(&relay_host::Table::zero(), &[]);
/// # Ok(())
/// # }
/// ```
///
/// ```compile_fail
/// # fn main() -> Result<(), relay_host::Refusal> {
/// #![deny(unused_must_use)]
/// relay_host::Network::blank().drain(&relay_host::Table::zero(), 1)?;
/// # Ok(())
/// # }
/// ```
#[must_use = "whether it is quiet says whether the budget was enough"]
#[derive(Clone, Copy, Debug, PartialEq, Eq)]
pub struct Drained {
    pub forwards: u32,
    pub rounds: u32,
    pub quiet: bool,
}

impl Network {
    /// Nobody is present.
    pub fn blank() -> Network {
        Network { bytes: Box::new([0; STATE]) }
    }

    /// Reads a state; refused by 1, then 20 to 26. `fault` has what such a refusal is about, in words.
    pub fn read(bytes: &[u8]) -> Result<Network, Refusal> {
        let mut network = Network::blank();
        let checked = raw::copy(bytes, &mut network.bytes[..]);
        Refusal::of_answer(checked.number, checked.place, checked.detail)?;
        Ok(network)
    }

    /// The state's 5,120 bytes: what `read` takes.
    pub fn bytes(&self) -> &[u8] {
        &self.bytes[..]
    }

    /// Runs events until one is refused. The network is then that after the accepted ones.
    pub fn run(&mut self, table: &Table, events: &[Event]) -> Run {
        let records: Vec<u8> = events.iter().flat_map(Event::encode).collect();
        self.run_records(table, &records)
    }

    /// Runs event records, which may be damaged: 3, 6 and 7 are possible here.
    pub fn run_records(&mut self, table: &Table, records: &[u8]) -> Run {
        let mut tally = Tally::default();
        let answer = raw::run(&mut self.bytes[..], table.bytes(), records, &mut tally);
        let refusal = Refusal::of_answer(answer.number, answer.place, answer.detail).err();
        Run { accepted: answer.accepted, tally, refusal }
    }

    /// Runs one event; the network stays as it is if the event is refused.
    pub fn apply(&mut self, table: &Table, event: &Event) -> Result<Tally, Refusal> {
        let run = self.run(table, std::slice::from_ref(event));
        match run.refusal {
            None => Ok(run.tally),
            Some(refusal) => Err(refusal),
        }
    }

    /// Forwards one message and answers the receivers: the peers that newly hold it, which are those neighbours that subscribe to
    /// its topic and had it neither pending nor seen. As many as they are, so many are the deliveries. Refused by 8, then 13.
    ///
    /// ```
    /// use relay_host::{Message, Network, Number, Peer, Set, Table};
    ///
    /// let (table, mut network) = (Table::zero(), Network::blank());
    /// for line in ["join 0 pubs 0", "join 1 subs 0 neighbours 0", "join 2 subs 0 neighbours 0,1", "produce 0 5"] {
    ///     network.apply(&table, &line.parse().unwrap()).unwrap();
    /// }
    /// let (zero, one, five) = (Peer::new(0).unwrap(), Peer::new(1).unwrap(), Message::new(5).unwrap());
    /// let receivers = network.forward(&table, zero, five).unwrap();
    /// assert_eq!((receivers.to_string().as_str(), receivers.len()), ("1,2", 2));
    /// assert_eq!(network.forward(&table, one, five), Ok(Set::empty())); // 0 has seen it, 2 holds it
    /// assert!(network.forward(&table, one, five).is_err()); // it is no longer pending there
    /// ```
    pub fn forward(&mut self, table: &Table, peer: Peer, message: Message) -> Result<Set<Peer>, Refusal> {
        let forwarded = raw::forward(&mut self.bytes[..], table.bytes(), peer.get(), message.get());
        Refusal::of_answer(forwarded.number, forwarded.place, forwarded.detail)?;
        Ok(Set::of_word(forwarded.receivers.into()))
    }

    /// Forwards by rounds until nothing is pending or the budget is spent. By what is proved the engine refuses no sound network
    /// with a good table, so that the one refusal here is [`Reason::NoEngine`].
    pub fn drain(&mut self, table: &Table, budget: u32) -> Result<Drained, Refusal> {
        let drained = raw::drain(&mut self.bytes[..], table.bytes(), budget);
        Refusal::of_answer(drained.number, drained.place, drained.detail)?;
        Ok(Drained { forwards: drained.forwards, rounds: drained.rounds, quiet: drained.quiet })
    }

    /// The commitment image. As with a drain, the one refusal here is [`Reason::NoEngine`].
    pub fn image(&self) -> Result<Image, Refusal> {
        let mut bytes = Box::new([0; STATE]);
        let checked = raw::image(self.bytes(), &mut bytes[..]);
        Refusal::of_answer(checked.number, checked.place, checked.detail)?;
        Ok(Image { bytes })
    }

    /// What the network holds of a peer; none if it is absent.
    pub fn desk(&self, peer: Peer) -> Option<Desk> {
        desk(&self.bytes, peer)
    }

    /// The present peers, rising.
    pub fn desks(&self) -> impl Iterator<Item = (Peer, Desk)> + '_ {
        Peer::all().filter_map(|peer| Some((peer, self.desk(peer)?)))
    }

    /// How many pairs, a peer with a message, are pending.
    pub fn pending_pairs(&self) -> usize {
        self.desks().map(|(_, desk)| desk.pending.len()).sum()
    }

    /// The peers where a message is pending, and those that have seen it.
    pub fn holders(&self, message: Message) -> (Set<Peer>, Set<Peer>) {
        let where_in = |set: fn(&Desk) -> Set<Message>| {
            let having = self.desks().filter(|(_, desk)| set(desk).has(message));
            having.map(|(peer, _)| peer).collect()
        };
        (where_in(|desk| desk.pending), where_in(|desk| desk.seen))
    }
}

impl fmt::Debug for Network {
    fn fmt(&self, out: &mut fmt::Formatter) -> fmt::Result {
        out.debug_map().entries(self.desks()).finish()
    }
}

/// A present peer.
#[derive(Clone, Copy, Debug, PartialEq, Eq)]
pub struct Desk {
    pub pubs: Set<Topic>,
    pub subs: Set<Topic>,
    pub neighbours: Set<Peer>,
    pub pending: Set<Message>,
    pub seen: Set<Message>,
    known: [Set<Peer>; 32],
}

impl Desk {
    /// What a record holds behind its first four bytes, whether present, absent or neither.
    pub(crate) fn of_record(record: &[u8]) -> Desk {
        let word = |at: usize, length: usize| {
            let bytes = record[at..at + length].iter().rev();
            bytes.fold(0, |word, &byte| word << 8 | u64::from(byte))
        };
        Desk {
            pubs: Set::of_word(word(4, 4)),
            subs: Set::of_word(word(8, 4)),
            neighbours: Set::of_word(word(12, 4)),
            pending: Set::of_word(word(16, 8)),
            seen: Set::of_word(word(24, 8)),
            known: std::array::from_fn(|topic| Set::of_word(word(32 + 4 * topic, 4))),
        }
    }

    /// The known subscribers of a topic among the neighbours.
    pub fn known(&self, topic: Topic) -> Set<Peer> {
        self.known[usize::from(topic.get())]
    }
}

fn desk(state: &[u8; STATE], peer: Peer) -> Option<Desk> {
    let record = record(state, peer);
    (record[0] != 0).then(|| Desk::of_record(record))
}

/// A peer's record in a state's bytes.
pub(crate) fn record(state: &[u8; STATE], peer: Peer) -> &[u8] {
    &state[usize::from(peer.get()) * PEER..][..PEER]
}

/// The commitment image of a network: presence, pubs, subs, and what is seen and pending nowhere.
#[derive(Clone, PartialEq, Eq)]
pub struct Image {
    bytes: Box<[u8; STATE]>,
}

impl fmt::Debug for Image {
    fn fmt(&self, out: &mut fmt::Formatter) -> fmt::Result {
        out.debug_map().entries(self.desks()).finish()
    }
}

impl Image {
    /// The image's 5,120 bytes, which are a state's, too.
    pub fn bytes(&self) -> &[u8] {
        &self.bytes[..]
    }

    /// The present peers, rising. Neighbours, pending and known subscribers are empty.
    pub fn desks(&self) -> impl Iterator<Item = (Peer, Desk)> + '_ {
        Peer::all().filter_map(|peer| Some((peer, desk(&self.bytes, peer)?)))
    }
}

/// What a message number stands for.
#[derive(Clone, Copy, Debug, PartialEq, Eq)]
pub struct Row {
    pub topic: Topic,
    pub origin: Peer,
}

/// A message table that the engine accepts. Its rows can be printed with `{:?}`, those that aren't zero.
#[derive(Clone, PartialEq, Eq)]
pub struct Table {
    bytes: Box<[u8; TABLE]>,
}

impl fmt::Debug for Table {
    fn fmt(&self, out: &mut fmt::Formatter) -> fmt::Result {
        let rows = Message::all().map(|message| (message, self.row(message)));
        out.debug_map().entries(rows.filter(|(_, row)| row.topic.get() != 0 || row.origin.get() != 0)).finish()
    }
}

impl Table {
    /// Every message has topic 0 and origin 0.
    pub fn zero() -> Table {
        Table { bytes: Box::new([0; TABLE]) }
    }

    /// Reads a table; refused by 2, then 4. The engine judges it: by a run of no events on a blank network.
    pub fn read(bytes: &[u8]) -> Result<Table, Refusal> {
        let mut blank = Network::blank();
        let answer = raw::run(&mut blank.bytes[..], bytes, &[], &mut Tally::default());
        Refusal::of_answer(answer.number, answer.place, answer.detail)?;
        match bytes.try_into() {
            Ok(bytes) => Ok(Table { bytes: Box::new(bytes) }),
            Err(_) => Err(Refusal::at(Reason::TableLength, 0)),
        }
    }

    /// The table's 256 bytes: what `read` takes.
    pub fn bytes(&self) -> &[u8] {
        &self.bytes[..]
    }

    /// What a message number stands for.
    pub fn row(&self, message: Message) -> Row {
        let at = usize::from(message.get()) * ROW;
        Row { topic: Topic::of_low_bits(self.bytes[at]), origin: Peer::of_low_bits(self.bytes[at + 1]) }
    }

    /// Says what a message number stands for.
    pub fn set(&mut self, message: Message, row: Row) {
        let at = usize::from(message.get()) * ROW;
        self.bytes[at] = row.topic.get();
        self.bytes[at + 1] = row.origin.get();
    }
}
