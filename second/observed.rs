//! What stands in the bytes of a state, read without the model, and E2's statements on a forward in these
//! words. They are tested on every answer of the engine (compare.rs, orders.rs) and on the model (properties.rs).

use crate::model::state::word_of;
use crate::model::Forwarded;

pub const RECORD: usize = 160;

/// A set of messages as it stands in a record: 16 for pending, 24 for seen.
pub fn messages(state: &[u8], peer: usize, place: usize) -> u64 {
    let start = RECORD * peer + place;
    u64::from_le_bytes(state[start..start + 8].try_into().expect("8 bytes"))
}

/// A set of peers or topics as it stands in a record: 8 for subs, 12 for neighbours.
pub fn word(state: &[u8], peer: usize, place: usize) -> u32 {
    let start = RECORD * peer + place;
    u32::from_le_bytes(state[start..start + 4].try_into().expect("4 bytes"))
}

/// The peers of which this is so, as a word.
fn those(is_so: impl Fn(usize) -> bool) -> u32 {
    (0..32).filter(|q| is_so(*q)).map(|q| 1 << q).sum()
}

/// A forward called alone: what was asked, the bytes before and after it, and the answer.
pub struct Forward<'a> {
    pub peer: u8,
    pub message: u8,
    pub table: &'a [u8],
    pub before: &'a [u8],
    pub after: &'a [u8],
    pub answer: &'a Forwarded,
}

impl Forward<'_> {
    /// What is wrong with the answer, in words.
    pub fn wrong(&self) -> Vec<String> {
        let answer = self.answer;
        let receivers = word_of(&answer.receivers);
        let mut tests =
            vec![(receivers.count_ones() == answer.deliveries, "the count is not the set's size")];
        if answer.number != 0 {
            tests.push((receivers == 0, "a refused forward has receivers"));
        } else if !self.can_be_read() {
            tests.push((false, "it is accepted with a wrong length or number"));
        } else {
            tests.extend([
                (receivers >> self.peer & 1 == 0, "the sender is a receiver"),
                (receivers == self.newly_pending(), "the receivers are not those where it is newly pending"),
                (receivers == self.entitled(), "the receivers are not the linked subscribers that lacked it"),
            ]);
        }
        let broken = tests.into_iter().filter(|(holds, _)| !holds);
        broken.map(|(_, words)| format!("{words}: {answer:?}")).collect()
    }

    fn can_be_read(&self) -> bool {
        let lengths = [self.before.len(), self.after.len(), self.table.len()];
        lengths == [5120, 5120, 256] && self.peer < 32 && self.message < 64 && self.topic() < 32
    }

    fn topic(&self) -> u8 {
        self.table[4 * self.message as usize]
    }

    fn has(&self, state: &[u8], peer: usize, place: usize) -> bool {
        messages(state, peer, place) >> self.message & 1 == 1
    }

    /// Where the message is pending afterwards and was not before.
    fn newly_pending(&self) -> u32 {
        those(|q| self.has(self.after, q, 16) && !self.has(self.before, q, 16))
    }

    /// Who is linked to the sender, subscribed to the topic, and had the message neither pending nor seen. The
    /// known subscribers are not asked: a sound state has them so.
    fn entitled(&self) -> u32 {
        let linked = |q| word(self.before, self.peer as usize, 12) >> q & 1 == 1;
        let subscribed = |q| word(self.before, q, 8) >> self.topic() & 1 == 1;
        let had = |q| self.has(self.before, q, 16) || self.has(self.before, q, 24);
        those(|q| linked(q) && subscribed(q) && !had(q))
    }
}
