//! What occurred in a call that 20 to 26 refuse, in words. entries.rs says which must occur.

use crate::model::state::{all_peers, all_topics, Network, Peer};
use crate::occurrences::{once, those, Occurrence};
use crate::subject::Reply;

pub fn of_state(state: &[u8], reply: &Reply) -> Vec<Occurrence> {
    let network = Network::parse(state);
    let (number, place) = (reply.number(), Peer(reply.place() as u8));
    let mut found = vec![once(match place {
        Peer(0) => "record 0",
        Peer(31) => "record 31",
        _ => "another record",
    })];
    match number {
        20 if network.at(place).first > 1 => found.push(once("20 for byte 0")),
        20 => found.push(once("20 for bytes 1-3")),
        23..=25 => found.extend(of_detail(&network, number, place, reply.detail())),
        _ => (),
    }
    if breaks_more(&network, number, place) {
        found.push(once(&format!("{number} and a higher rule")));
    }
    if lower_further_on(&network, number, place) {
        found.push(once(&format!("{number} before a lower rule")));
    }
    found.extend(those(&[(state.iter().all(|byte| *byte == 255), "every byte 255")]));
    found
}

/// All the peers or topics at fault in record p, rising.
fn at_fault(network: &Network, number: u8, p: Peer) -> Vec<u8> {
    let record = network.at(p);
    let near = record.neighbours.iter();
    match number {
        23 => near.filter(|q| !network.present(**q)).map(|q| q.0).collect(),
        24 => near.filter(|q| !network.at(**q).neighbours.contains(&p)).map(|q| q.0).collect(),
        _ => {
            let wrong = |topic: &_| {
                let subscribed = near.clone().filter(|q| network.at(**q).subs.contains(topic));
                !subscribed.eq(record.known_for(*topic))
            };
            all_topics().filter(wrong).map(|topic| topic.0).collect()
        }
    }
}

/// For 23 to 25: which peer or topic, whether others are at fault too, and what is odd about it.
fn of_detail(network: &Network, number: u8, p: Peer, detail: u8) -> Vec<Occurrence> {
    let which = match detail {
        0 => "0",
        31 => "31",
        _ => "another",
    };
    let mut found = vec![once(&format!("{number} of {which}"))];
    if at_fault(network, number, p).len() > 1 {
        found.push(once(&format!("{number} of several")));
    }
    if number == 23 {
        let silent = |q: &u8| *q < detail && network.present(Peer(*q));
        found.extend(those(&[
            (network.at(Peer(detail)).first > 1, "23 of one with byte 0 above 1"),
            (at_fault(network, 24, p).iter().any(silent), "23 above one that does not list back"),
        ]));
    }
    found
}

/// Does record p break a higher rule too? For 20 and 21 the rest is judged as if it were a present peer's.
fn breaks_more(network: &Network, number: u8, p: Peer) -> bool {
    if number > 21 {
        return network.faults(p).len() > 1;
    }
    let mut mended = network.clone();
    (mended.at_mut(p).first, mended.at_mut(p).gap) = (1, [0; 3]);
    !mended.faults(p).is_empty()
}

/// Does a record further on break a rule that comes before this one?
fn lower_further_on(network: &Network, number: u8, p: Peer) -> bool {
    let lowest = |q: Peer| network.faults(q).first().map(|fault| fault.number());
    all_peers().filter(|q| *q > p).filter_map(lowest).any(|other| other < number)
}
