//! The seven events and their 16-byte records (document 01, "Records" and "Events").

use crate::numbers::{Message, Number, Peer, Set, Topic};
use crate::refusal::{Reason, Refusal};
use std::fmt;

/// An event carries only its own fields. A later engine may have more kinds, so a `match` needs an arm for those:
///
/// ```
/// # use relay_host::Event;
/// fn is_leave(event: &Event) -> bool {
///     match event {
///         Event::Leave(_) => true,
///         Event::Skip | Event::Produce(..) | Event::Forward(..) | Event::Join(..) => false,
///         Event::Subscribe(..) | Event::Unsubscribe(..) => false,
///         _ => false,
///     }
/// }
/// assert!(is_leave(&"leave 3".parse().unwrap()));
/// ```
///
/// ```compile_fail
/// # use relay_host::Event;
/// fn is_leave(event: &Event) -> bool {
///     match event {
///         Event::Leave(_) => true,
///         Event::Skip | Event::Produce(..) | Event::Forward(..) | Event::Join(..) => false,
///         Event::Subscribe(..) | Event::Unsubscribe(..) => false,
///     }
/// }
/// assert!(is_leave(&"leave 3".parse().unwrap()));
/// ```
#[derive(Clone, Copy, Debug, PartialEq, Eq)]
#[non_exhaustive]
pub enum Event {
    Skip,
    Produce(Peer, Message),
    Forward(Peer, Message),
    Subscribe(Peer, Set<Topic>),
    Unsubscribe(Peer, Set<Topic>),
    Leave(Peer),
    Join(Peer, Joining),
}

/// What a peer brings when it joins.
#[derive(Clone, Copy, Debug, PartialEq, Eq)]
pub struct Joining {
    pub subs: Set<Topic>,
    pub pubs: Set<Topic>,
    pub neighbours: Set<Peer>,
}

/// The size of an event record.
pub const RECORD: usize = 16;

/// An event record taken apart: 0 code; 1 peer; 2 message; 3 zero; then three words of four bytes.
#[derive(Default)]
struct Fields {
    code: u8,
    peer: u8,
    message: u8,
    words: [u32; 3],
}

impl Event {
    fn fields(&self) -> Fields {
        let simple = |code, peer: Peer, message, word| Fields { code, peer: peer.get(), message, words: [word, 0, 0] };
        match *self {
            Event::Skip => Fields::default(),
            Event::Produce(peer, message) => simple(1, peer, message.get(), 0),
            Event::Forward(peer, message) => simple(2, peer, message.get(), 0),
            Event::Subscribe(peer, topics) => simple(3, peer, 0, half(topics)),
            Event::Unsubscribe(peer, topics) => simple(4, peer, 0, half(topics)),
            Event::Leave(peer) => simple(5, peer, 0, 0),
            Event::Join(peer, joining) => Fields {
                code: 6,
                peer: peer.get(),
                message: 0,
                words: [half(joining.subs), half(joining.pubs), half(joining.neighbours)],
            },
        }
    }

    /// The event's record.
    pub fn encode(&self) -> [u8; RECORD] {
        let fields = self.fields();
        let mut record = [0; RECORD];
        record[0] = fields.code;
        record[1] = fields.peer;
        record[2] = fields.message;
        for (word, at) in fields.words.iter().zip([4, 8, 12]) {
            record[at..at + 4].copy_from_slice(&word.to_le_bytes());
        }
        record
    }

    /// The event of a record: refused for an unknown code, then for a field out of range or an unused byte not zero.
    pub fn decode(record: &[u8; RECORD]) -> Result<Event, Reason> {
        let word = |at: usize| {
            let bytes = [record[at], record[at + 1], record[at + 2], record[at + 3]];
            u64::from(u32::from_le_bytes(bytes))
        };
        if record[0] > 6 {
            return Err(Reason::UnknownCode);
        }
        let peer = Peer::new(record[1]).ok_or(Reason::BadField)?;
        let message = Message::new(record[2]).ok_or(Reason::BadField)?;
        let event = match record[0] {
            0 => Event::Skip,
            1 => Event::Produce(peer, message),
            2 => Event::Forward(peer, message),
            3 => Event::Subscribe(peer, Set::of_word(word(4))),
            4 => Event::Unsubscribe(peer, Set::of_word(word(4))),
            5 => Event::Leave(peer),
            _ => {
                let joining = Joining {
                    subs: Set::of_word(word(4)),
                    pubs: Set::of_word(word(8)),
                    neighbours: Set::of_word(word(12)),
                };
                Event::Join(peer, joining)
            }
        };
        // A byte that the event doesn't carry would not come back.
        if event.encode() == *record {
            Ok(event)
        } else {
            Err(Reason::BadField)
        }
    }
}

/// The word of a set of peers or topics: its upper half is zero.
fn half<N: Number>(set: Set<N>) -> u32 {
    (set.word() & u64::from(u32::MAX)) as u32
}

/// The event as a line of text, which `text` reads back.
impl fmt::Display for Event {
    fn fmt(&self, out: &mut fmt::Formatter) -> fmt::Result {
        match self {
            Event::Skip => write!(out, "skip"),
            Event::Produce(peer, message) => write!(out, "produce {peer} {message}"),
            Event::Forward(peer, message) => write!(out, "forward {peer} {message}"),
            Event::Subscribe(peer, topics) => write!(out, "subscribe {peer} topics {topics}"),
            Event::Unsubscribe(peer, topics) => write!(out, "unsubscribe {peer} topics {topics}"),
            Event::Leave(peer) => write!(out, "leave {peer}"),
            Event::Join(peer, joining) => {
                write!(out, "join {peer}")?;
                write_set(out, "subs", joining.subs)?;
                write_set(out, "pubs", joining.pubs)?;
                write_set(out, "neighbours", joining.neighbours)
            }
        }
    }
}

/// A set behind its keyword; nothing for the empty set.
fn write_set<N: Number>(out: &mut fmt::Formatter, keyword: &str, set: Set<N>) -> fmt::Result {
    if set.is_empty() {
        return Ok(());
    }
    write!(out, " {keyword} {set}")
}

/// The events of a record file, up to the first record that is none: refused by 3, then by 6 or 7.
pub fn decode_all(records: &[u8]) -> (Vec<Event>, Option<Refusal>) {
    let mut events = Vec::new();
    if records.len() % RECORD != 0 {
        return (events, Some(Refusal::at(Reason::EventsLength, 0)));
    }
    let mut left = records;
    while let Some((record, rest)) = left.split_first_chunk() {
        match Event::decode(record) {
            Ok(event) => events.push(event),
            Err(reason) => {
                let place = events.len();
                return (events, Some(Refusal::at(reason, place)));
            }
        }
        left = rest;
    }
    (events, None)
}

#[cfg(test)]
mod tests {
    use super::*;

    #[test]
    fn records_are_as_document_01_lays_them_out() {
        let event: Event = "join 1 subs 0 pubs 1,31 neighbours 0".parse().unwrap();
        let record = [6, 1, 0, 0, 1, 0, 0, 0, 2, 0, 0, 0x80, 1, 0, 0, 0];
        assert_eq!(event.encode(), record);
        let event: Event = "produce 2 63".parse().unwrap();
        assert_eq!(event.encode(), [1, 2, 63, 0, 0, 0, 0, 0, 0, 0, 0, 0, 0, 0, 0, 0]);
    }

    #[test]
    fn every_byte_of_a_record_counts() {
        for code in 0..=6u8 {
            let mut record = [0; RECORD];
            record[0] = code;
            let event = Event::decode(&record).unwrap();
            assert_eq!(event.encode(), record);
            for place in 1..RECORD {
                let mut other = record;
                other[place] = 1;
                match Event::decode(&other) {
                    Ok(another) => assert!(another != event && another.encode() == other),
                    Err(reason) => assert_eq!(reason, Reason::BadField),
                }
            }
        }
        for code in 7..=255u8 {
            let mut record = [255; RECORD];
            record[0] = code;
            assert_eq!(Event::decode(&record), Err(Reason::UnknownCode));
        }
    }
}
