//! What a refused state shows, in words: what is found there, and what the rule expects.
//!
//! The engine has said which rule, which record and which neighbour or topic; this reads the bytes at that place and judges
//! nothing. In these words a peer is a desk, as everywhere that a person reads.

use crate::network::{record, Desk, STATE};
use crate::numbers::{Number, Peer, Set, Topic};
use crate::refusal::{Reason, Refusal};

/// A refusal of a state together with what is found there, for example
/// `known subscribers wrong (25, record 1, topic 0): lists desk 2, which doesn't subscribe (found 2, expected none)`.
pub fn in_words(state: &[u8], refusal: &Refusal) -> String {
    match found(state, refusal) {
        Some(found) => format!("{refusal}: {found}"),
        None => refusal.to_string(),
    }
}

/// What is found and what is expected, for 1 and 20 to 26; none for other refusals, and where these bytes don't show the fault.
pub fn found(state: &[u8], refusal: &Refusal) -> Option<String> {
    let Ok(state) = <&[u8; STATE]>::try_from(state) else {
        return (refusal.reason == Reason::StateLength).then(|| format!("found {}", state.len()));
    };
    let peer = Peer::new(u8::try_from(refusal.place).ok()?)?;
    let fault = Fault { state, peer, desk: Desk::of_record(record(state, peer)) };
    match refusal.reason {
        Reason::PresenceByte => fault.first_bytes(),
        Reason::AbsentNotEmpty => fault.left_over(),
        Reason::ListsItself => fault.itself(),
        Reason::NeighbourNotPresent => fault.absent(Peer::new(refusal.detail)?),
        Reason::NotListedBack => fault.not_back(Peer::new(refusal.detail)?),
        Reason::KnownSubscribersWrong => fault.known(Topic::new(refusal.detail)?),
        Reason::PendingAlsoSeen => fault.both(),
        _ => None,
    }
}

/// A state, and the record at fault.
struct Fault<'a> {
    state: &'a [u8; STATE],
    peer: Peer,
    desk: Desk,
}

impl Fault<'_> {
    fn byte(&self, peer: Peer, at: usize) -> u8 {
        record(self.state, peer)[at]
    }

    fn other(&self, peer: Peer) -> Desk {
        Desk::of_record(record(self.state, peer))
    }

    /// 20: the first byte, and the three behind it.
    fn first_bytes(&self) -> Option<String> {
        let allowed = [(0, 1, "0 or 1"), (1, 0, "0"), (2, 0, "0"), (3, 0, "0")];
        let wrong = allowed.into_iter().filter(|&(at, most, _)| self.byte(self.peer, at) > most);
        let said =
            wrong.map(|(at, _, expected)| format!("byte {at} is {}, expected {expected}", self.byte(self.peer, at)));
        joined(&said.collect::<Vec<String>>(), "; ")
    }

    /// 21: what an absent desk's record still holds.
    fn left_over(&self) -> Option<String> {
        let desk = &self.desk;
        let topics: Set<Topic> = Topic::all().filter(|&topic| !desk.known(topic).is_empty()).collect();
        let known = if topics.len() == 1 { "known subscribers of topic" } else { "known subscribers of topics" };
        let parts = [
            held("pubs", desk.pubs),
            held("subs", desk.subs),
            held("neighbours", desk.neighbours),
            held("pending", desk.pending),
            held("seen", desk.seen),
            held(known, topics),
        ];
        let held = joined(&parts.into_iter().flatten().collect::<Vec<String>>(), ", ")?;
        let said = format!("desk {} is absent (byte 0 is 0), yet it has {held}; expected nothing", self.peer);
        (self.byte(self.peer, 0) == 0).then_some(said)
    }

    /// 22: the record's own bit among its neighbours.
    fn itself(&self) -> Option<String> {
        let neighbours = self.desk.neighbours;
        let others = neighbours.without(only(self.peer));
        let said = format!("desk {} lists itself (found neighbours {neighbours}, expected {others})", self.peer);
        neighbours.has(self.peer).then_some(said)
    }

    /// 23: a neighbour whose first byte isn't 1.
    fn absent(&self, neighbour: Peer) -> Option<String> {
        let absent: Set<Peer> = self.desk.neighbours.members().filter(|&peer| self.byte(peer, 0) != 1).collect();
        let first = self.byte(neighbour, 0);
        let said = format!("lists desk {neighbour}, which is absent (its byte 0 is {first}, expected 1)");
        absent.has(neighbour).then(|| said + &the_same_of(absent.without(only(neighbour))))
    }

    /// 24: a neighbour that has no link back.
    fn not_back(&self, neighbour: Peer) -> Option<String> {
        let me = self.peer;
        let deaf: Set<Peer> = self.desk.neighbours.members().filter(|&q| !self.other(q).neighbours.has(me)).collect();
        let listed = self.other(neighbour).neighbours;
        let said = format!(
            "lists desk {neighbour}, which doesn't list desk {me} (its neighbours are {listed}, expected {me} among them)"
        );
        deaf.has(neighbour).then(|| said + &the_same_of(deaf.without(only(neighbour))))
    }

    /// 25: what a topic's word lists too much, and what it misses.
    fn known(&self, topic: Topic) -> Option<String> {
        let found = self.desk.known(topic);
        let neighbours = self.desk.neighbours;
        let expected: Set<Peer> = neighbours.members().filter(|&peer| self.other(peer).subs.has(topic)).collect();
        let strangers = found.without(neighbours);
        let deaf = found.common(neighbours).without(expected);
        let missed = expected.without(found);
        let said = [
            said_of("lists", strangers, "which isn't a neighbour", "which aren't neighbours"),
            said_of("lists", deaf, "which doesn't subscribe", "which don't subscribe"),
            said_of("misses", missed, "a neighbour that subscribes", "neighbours that subscribe"),
        ];
        let said = joined(&said.into_iter().flatten().collect::<Vec<String>>(), "; ")?;
        Some(format!("{said} (found {found}, expected {expected})"))
    }

    /// 26: messages that are pending and seen.
    fn both(&self) -> Option<String> {
        let (pending, seen) = (self.desk.pending, self.desk.seen);
        let both = pending.common(seen);
        let messages = match both.len() {
            0 => return None,
            1 => format!("message {both} is"),
            _ => format!("messages {both} are"),
        };
        Some(format!("{messages} both pending and seen (found pending {pending}, seen {seen}; expected none in both)"))
    }
}

/// The set with one member.
fn only(peer: Peer) -> Set<Peer> {
    [peer].into_iter().collect()
}

fn joined(parts: &[String], between: &str) -> Option<String> {
    (!parts.is_empty()).then(|| parts.join(between))
}

/// A set behind its name; none for the empty one.
fn held<N: Number>(name: &str, set: Set<N>) -> Option<String> {
    (!set.is_empty()).then(|| format!("{name} {set}"))
}

fn desks(set: Set<Peer>) -> String {
    match set.len() {
        1 => format!("desk {set}"),
        _ => format!("desks {set}"),
    }
}

/// What is said of some desks; none if there aren't any.
fn said_of(verb: &str, set: Set<Peer>, of_one: &str, of_more: &str) -> Option<String> {
    let about = if set.len() == 1 { of_one } else { of_more };
    (!set.is_empty()).then(|| format!("{verb} {}, {about}", desks(set)))
}

/// The desks beside the lowest at fault.
fn the_same_of(others: Set<Peer>) -> String {
    match others.is_empty() {
        true => String::new(),
        false => format!("; the same of {}", desks(others)),
    }
}

#[cfg(test)]
mod tests {
    use super::*;

    /// Three desks in a chain, 0 - 1 - 2; 1 and 2 subscribe to topic 0. Bytes are put over it: record, place, byte.
    fn state(bytes: &[(usize, usize, u8)]) -> Vec<u8> {
        let chain = [(0, 0, 1), (0, 12, 2), (0, 32, 2), (1, 0, 1), (1, 8, 1), (1, 12, 5), (1, 32, 4)];
        let mut state = vec![0; STATE];
        for &(record, at, byte) in chain.iter().chain(&[(2, 0, 1), (2, 8, 1), (2, 12, 2), (2, 32, 2)]).chain(bytes) {
            state[160 * record + at] = byte;
        }
        state
    }

    fn said(bytes: &[(usize, usize, u8)], reason: Reason, place: usize, detail: u8) -> String {
        found(&state(bytes), &Refusal { reason, place, detail }).expect("the bytes show it")
    }

    #[test]
    fn first_bytes_are_named() {
        let said = |bytes: &[_]| said(bytes, Reason::PresenceByte, 4, 0);
        assert_eq!(said(&[(4, 0, 2)]), "byte 0 is 2, expected 0 or 1");
        assert_eq!(said(&[(4, 0, 1), (4, 3, 7)]), "byte 3 is 7, expected 0");
        assert_eq!(said(&[(4, 0, 255), (4, 1, 1)]), "byte 0 is 255, expected 0 or 1; byte 1 is 1, expected 0");
    }

    #[test]
    fn what_an_absent_desk_still_has_is_named() {
        let said = |bytes: &[_]| said(bytes, Reason::AbsentNotEmpty, 31, 0);
        let start = "desk 31 is absent (byte 0 is 0), yet it has";
        assert_eq!(said(&[(31, 4, 1)]), format!("{start} pubs 0; expected nothing"));
        assert_eq!(said(&[(31, 8, 3), (31, 23, 0x80)]), format!("{start} subs 0,1, pending 63; expected nothing"));
        assert_eq!(said(&[(31, 12, 1), (31, 24, 4)]), format!("{start} neighbours 0, seen 2; expected nothing"));
        assert_eq!(said(&[(31, 159, 1)]), format!("{start} known subscribers of topic 31; expected nothing"));
        let topics = "known subscribers of topics 0,1";
        assert_eq!(said(&[(31, 35, 1), (31, 36, 1)]), format!("{start} {topics}; expected nothing"));
    }

    #[test]
    fn bad_links_are_named() {
        let own = said(&[(1, 12, 7)], Reason::ListsItself, 1, 0);
        assert_eq!(own, "desk 1 lists itself (found neighbours 0-2, expected 0,2)");
        let absent = said(&[(1, 13, 2)], Reason::NeighbourNotPresent, 1, 9);
        assert_eq!(absent, "lists desk 9, which is absent (its byte 0 is 0, expected 1)");
        let absent = said(&[(2, 0, 2), (1, 15, 0xc0)], Reason::NeighbourNotPresent, 1, 2);
        let others = "the same of desks 30,31";
        assert_eq!(absent, format!("lists desk 2, which is absent (its byte 0 is 2, expected 1); {others}"));
        let not_back = said(&[(0, 12, 6)], Reason::NotListedBack, 0, 2);
        let why = "its neighbours are 1, expected 0 among them";
        assert_eq!(not_back, format!("lists desk 2, which doesn't list desk 0 ({why})"));
        let not_back = said(&[(0, 12, 0), (2, 12, 0)], Reason::NotListedBack, 1, 0);
        let why = "its neighbours are none, expected 1 among them";
        assert_eq!(not_back, format!("lists desk 0, which doesn't list desk 1 ({why}); the same of desk 2"));
    }

    #[test]
    fn wrong_known_subscribers_are_named() {
        let said = |bytes: &[_], topic| said(bytes, Reason::KnownSubscribersWrong, 1, topic);
        assert_eq!(said(&[(1, 32, 5)], 0), "lists desk 0, which doesn't subscribe (found 0,2, expected 2)");
        assert_eq!(said(&[(1, 32, 0)], 0), "misses desk 2, a neighbour that subscribes (found none, expected 2)");
        assert_eq!(said(&[(1, 159, 0x80)], 31), "lists desk 31, which isn't a neighbour (found 31, expected none)");
        let all = "lists desks 1,3, which aren't neighbours; lists desk 0, which doesn't subscribe; \
                   misses desk 2, a neighbour that subscribes (found 0,1,3, expected 2)";
        assert_eq!(said(&[(1, 32, 11)], 0), all);
        assert_eq!(said(&[(1, 36, 5)], 1), "lists desks 0,2, which don't subscribe (found 0,2, expected none)");
        let two = "misses desks 0,2, neighbours that subscribe (found none, expected 0,2)";
        assert_eq!(said(&[(0, 8, 1), (1, 32, 0)], 0), two);
    }

    #[test]
    fn messages_pending_and_seen_are_named() {
        let said = |bytes: &[_]| said(bytes, Reason::PendingAlsoSeen, 2, 0);
        let one = "message 5 is both pending and seen (found pending 5,6, seen 5; expected none in both)";
        assert_eq!(said(&[(2, 16, 0x60), (2, 24, 0x20)]), one);
        let two = "messages 0,63 are both pending and seen (found pending 0,63, seen 0,1,63; expected none in both)";
        assert_eq!(said(&[(2, 16, 1), (2, 23, 0x80), (2, 24, 3), (2, 31, 0x80)]), two);
    }

    #[test]
    fn a_length_is_said_and_sound_bytes_have_nothing_to_say() {
        let length = Refusal::at(Reason::StateLength, 0);
        assert_eq!(in_words(&[0; 100], &length), "state isn't 5,120 bytes (1): found 100");
        for number in (0..=u8::MAX).filter(|&number| number != 1) {
            let Some(reason) = Reason::of_number(number) else { continue };
            for (place, detail) in [(0, 0), (1, 2), (2, 31), (31, 255), (32, 0), (usize::MAX, 0)] {
                let refusal = Refusal { reason, place, detail };
                assert_eq!(in_words(&state(&[]), &refusal), refusal.to_string());
                assert_eq!(in_words(&[], &refusal), refusal.to_string());
            }
        }
    }
}
