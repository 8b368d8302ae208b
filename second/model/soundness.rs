//! Soundness: which rules of 01 a record breaks, by E1's numbers, and which peer or topic is at fault.

use super::state::{all_peers, all_topics, Network, Peer, Record, Topic};

/// A rule that a record breaks, with the lowest peer or topic at fault where E1 asks for it.
#[derive(Clone, Copy, Debug, PartialEq, Eq)]
pub enum Fault {
    FirstBytes,
    AbsentNotBlank,
    OwnNeighbour,
    NeighbourAbsent(Peer),
    NotListedBack(Peer),
    Known(Topic),
    PendingAndSeen,
}

impl Fault {
    /// "Refusals: 20 to 26, for these rules in this order"
    pub fn number(self) -> u8 {
        match self {
            Fault::FirstBytes => 20,
            Fault::AbsentNotBlank => 21,
            Fault::OwnNeighbour => 22,
            Fault::NeighbourAbsent(_) => 23,
            Fault::NotListedBack(_) => 24,
            Fault::Known(_) => 25,
            Fault::PendingAndSeen => 26,
        }
    }

    /// "23 to 25 also give the lowest peer or topic at fault (0 otherwise)."
    pub fn detail(self) -> u8 {
        match self {
            Fault::NeighbourAbsent(Peer(q)) | Fault::NotListedBack(Peer(q)) => q,
            Fault::Known(Topic(t)) => t,
            Fault::FirstBytes | Fault::AbsentNotBlank | Fault::OwnNeighbour | Fault::PendingAndSeen => 0,
        }
    }
}

/// A rule: how this record breaks it, if it does. "A fault belongs to the record p under test".
type Rule = fn(&Network, Peer) -> Option<Fault>;

/// "byte 0 is 0 or 1 and bytes 1-3 are zero; if absent, all its bytes are zero"
const OF_AN_ABSENT_PEER: [Rule; 2] = [first_bytes, absent_not_blank];

/// "if present: p isn't its own neighbour; each neighbour q is present and lists p; for every topic t, the
/// known subscribers are exactly the neighbours subscribed to t; pending and seen share no message."
const OF_A_PRESENT_PEER: [Rule; 6] =
    [first_bytes, own_neighbour, neighbour_absent, not_listed_back, known, pending_and_seen];

/// 20: "presence byte or zero bytes"
fn first_bytes(network: &Network, p: Peer) -> Option<Fault> {
    let record = network.at(p);
    (record.first > 1 || record.gap != [0, 0, 0]).then_some(Fault::FirstBytes)
}

/// 21: "absent record not empty"
fn absent_not_blank(network: &Network, p: Peer) -> Option<Fault> {
    (*network.at(p) != Record::default()).then_some(Fault::AbsentNotBlank)
}

/// 22: "own neighbour"
fn own_neighbour(network: &Network, p: Peer) -> Option<Fault> {
    network.at(p).neighbours.contains(&p).then_some(Fault::OwnNeighbour)
}

/// 23: "neighbour absent". "A peer is present when byte 0 is 1", so one with any other byte is absent.
fn neighbour_absent(network: &Network, p: Peer) -> Option<Fault> {
    let lowest = network.at(p).neighbours.iter().find(|q| !network.present(**q));
    lowest.map(|q| Fault::NeighbourAbsent(*q))
}

/// 24: "neighbour doesn't list back"
fn not_listed_back(network: &Network, p: Peer) -> Option<Fault> {
    let lowest = network.at(p).neighbours.iter().find(|q| !network.at(**q).neighbours.contains(&p));
    lowest.map(|q| Fault::NotListedBack(*q))
}

/// 25: "known subscribers wrong"
fn known(network: &Network, p: Peer) -> Option<Fault> {
    let record = network.at(p);
    let wrong = |topic: &Topic| {
        let subscribers = record.neighbours.iter().filter(|q| network.at(**q).subs.contains(topic));
        !subscribers.eq(record.known_for(*topic))
    };
    all_topics().find(wrong).map(Fault::Known)
}

/// 26: "pending also seen"
fn pending_and_seen(network: &Network, p: Peer) -> Option<Fault> {
    let record = network.at(p);
    (!record.pending.is_disjoint(&record.seen)).then_some(Fault::PendingAndSeen)
}

impl Network {
    /// All that is wrong with record p, the lowest rule first.
    pub fn faults(&self, p: Peer) -> Vec<Fault> {
        let rules: &[Rule] = if self.present(p) { &OF_A_PRESENT_PEER } else { &OF_AN_ABSENT_PEER };
        rules.iter().filter_map(|rule| rule(self, p)).collect()
    }

    /// "the lowest unsound record comes first, then its lowest rule"
    pub fn lowest_fault(&self) -> Option<(Peer, Fault)> {
        all_peers().find_map(|p| self.faults(p).first().map(|fault| (p, *fault)))
    }
}
