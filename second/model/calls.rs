//! The engine's calls on lent bytes: each tests its refusals in 01's order and writes only if it may.

use super::events::{apply, forward as forward_event, Event, Table, EVENT_SIZE, TABLE_SIZE};
use super::state::{all_peers, Message, Network, Peer, Record, MESSAGES, PEERS, STATE_SIZE};
use super::{Answer, Checked, Drained, Forwarded, Refusal, Tally};
use std::collections::BTreeSet;

/// A refusal that names no peer or topic at fault: every one but 23 to 25.
fn refuse(number: u8, place: usize) -> Refusal {
    Refusal { number, detail: 0, place }
}

/// 1: "state isn't 5,120 bytes"
fn state_length(state: &[u8]) -> Result<(), Refusal> {
    if state.len() == STATE_SIZE {
        Ok(())
    } else {
        Err(refuse(1, 0))
    }
}

/// 2: "message table isn't 256 bytes"
fn table_length(table: &[u8]) -> Result<(), Refusal> {
    if table.len() == TABLE_SIZE {
        Ok(())
    } else {
        Err(refuse(2, 0))
    }
}

/// 3: "event bytes aren't a multiple of 16"
fn events_length(events: &[u8]) -> Result<(), Refusal> {
    if events.len() % EVENT_SIZE == 0 {
        Ok(())
    } else {
        Err(refuse(3, 0))
    }
}

/// 4: a bad row of a table of the right length.
fn table_rows(table: &[u8]) -> Result<Table, Refusal> {
    Table::parse(table).map_err(|row| refuse(4, row))
}

/// 20 to 26, for a state of the right length: the place is the lowest unsound record.
fn sound(state: &[u8]) -> Result<Network, Refusal> {
    let network = Network::parse(state);
    match network.lowest_fault() {
        None => Ok(network),
        Some((peer, fault)) => {
            Err(Refusal { number: fault.number(), detail: fault.detail(), place: peer.0 as usize })
        }
    }
}

/// Reading and writing refuse by 1, then 20 to 26, and by nothing else.
pub fn read(state: &[u8]) -> Result<Network, Refusal> {
    state_length(state)?;
    sound(state)
}

fn checked(result: Result<(), Refusal>) -> Checked {
    match result {
        Ok(()) => Checked { number: 0, detail: 0, place: 0 },
        Err(Refusal { number, detail, place }) => Checked { number, detail, place },
    }
}

/// Reading alone.
pub fn check(state: &[u8]) -> Checked {
    checked(read(state).map(|_| ()))
}

/// Reads one buffer and writes what was read to another: "a refused write leaves its buffer untouched".
pub fn copy(from: &[u8], to: &mut [u8]) -> Checked {
    checked(read(from).and_then(|network| {
        state_length(to)?;
        to.copy_from_slice(&network.bytes());
        Ok(())
    }))
}

/// 1 to 4, then 20 to 26 are tested in that order before any event.
fn before_events(state: &[u8], table: &[u8], events: &[u8]) -> Result<(Network, Table), Refusal> {
    state_length(state)?;
    table_length(table)?;
    events_length(events)?;
    let table = table_rows(table)?;
    Ok((sound(state)?, table))
}

/// "Then events from place 0, each tested 6, 7, then its conditions. At the first refusal the run stops;
/// the state buffer holds the state after the accepted events."
pub fn run(state: &mut [u8], table: &[u8], events: &[u8], tally: &mut Tally) -> Answer {
    let (mut network, table) = match before_events(state, table, events) {
        Ok(both) => both,
        Err(Refusal { number, detail, place }) => return Answer { number, detail, place, accepted: 0 },
    };
    // The tally starts from zero in each run that gets past these.
    *tally = Tally::default();
    let mut answer = Answer { number: 0, detail: 0, place: 0, accepted: 0 };
    for (place, bytes) in events.chunks(EVENT_SIZE).enumerate() {
        match Event::parse(bytes).and_then(|event| Ok((apply(&mut network, &table, &event)?, event))) {
            Ok((receivers, event)) => {
                answer.accepted += 1;
                count(tally, &event, &receivers);
            }
            Err(number) => {
                answer = Answer { number, detail: 0, place, accepted: place };
                break;
            }
        }
    }
    state.copy_from_slice(&network.bytes());
    answer
}

/// "Produced and forwards are the accepted events of those kinds; deliveries is the sum of theirs."
pub fn count(tally: &mut Tally, event: &Event, receivers: &BTreeSet<Peer>) {
    match event {
        Event::Produce(..) => tally.produced += 1,
        Event::Forward(..) => {
            tally.forwards += 1;
            tally.deliveries += receivers.len() as u64;
        }
        _ => (),
    }
}

/// What forward and drain test alike: 1, 2, 4, 20 to 26.
fn before_forwards(state: &[u8], table: &[u8]) -> Result<(Network, Table), Refusal> {
    state_length(state)?;
    table_length(table)?;
    let table = table_rows(table)?;
    Ok((sound(state)?, table))
}

/// "Called alone on a state, table, peer and message", it refuses by 1, 2, 4, 20 to 26, 7, 8, 13 in this
/// order, "place 0 for the last three, buffers untouched."
pub fn forward(state: &mut [u8], table: &[u8], peer: u8, message: u8) -> Forwarded {
    let result = before_forwards(state, table).and_then(|(mut network, table)| {
        if peer >= PEERS || message >= MESSAGES {
            return Err(refuse(7, 0));
        }
        let receivers = forward_event(&mut network, &table, Peer(peer), Message(message))
            .map_err(|number| refuse(number, 0))?;
        Ok((network, receivers))
    });
    match result {
        Ok((network, receivers)) => {
            state.copy_from_slice(&network.bytes());
            let deliveries = receivers.len() as u32;
            Forwarded { number: 0, detail: 0, place: 0, deliveries, receivers }
        }
        Err(refusal) => Forwarded::refused(refusal),
    }
}

/// "A round forwards every pair that was pending when the round began, peers rising, messages rising
/// within a peer; what becomes pending meanwhile waits." Answers the forwards made and whether the round
/// got through all its pairs before the budget was spent.
pub fn round(network: &mut Network, table: &Table, budget: u32) -> (u32, bool) {
    let mut made = 0;
    for (peer, message) in network.pending_pairs() {
        if made == budget {
            return (made, false);
        }
        forward_event(network, table, peer, message).expect("a pending pair can be forwarded");
        made += 1;
    }
    (made, true)
}

/// "The drain stops when nothing is pending or the budget is spent." "A round whose last pair was just
/// forwarded is finished."
pub fn drain_network(network: &mut Network, table: &Table, budget: u32) -> (u32, u32, bool) {
    let mut forwards = 0;
    let mut rounds = 0;
    while forwards < budget && !network.pending_pairs().is_empty() {
        let (made, finished) = round(network, table, budget - forwards);
        forwards += made;
        if finished {
            rounds += 1;
        }
    }
    (forwards, rounds, network.pending_pairs().is_empty())
}

/// Refused as above, "with counts 0, not quiet, buffers untouched."
pub fn drain(state: &mut [u8], table: &[u8], budget: u32) -> Drained {
    match before_forwards(state, table) {
        Ok((mut network, table)) => {
            let (forwards, rounds, quiet) = drain_network(&mut network, &table, budget);
            state.copy_from_slice(&network.bytes());
            Drained { number: 0, detail: 0, place: 0, forwards, rounds, quiet }
        }
        Err(Refusal { number, detail, place }) => {
            Drained { number, detail, place, forwards: 0, rounds: 0, quiet: false }
        }
    }
}

/// "The image keeps presence, pubs and subs, and from every seen set removes each message pending at any
/// peer", "32 peer records whose neighbours, pending and known subscribers are zero".
pub fn image_of(network: &Network) -> Network {
    let waiting: BTreeSet<Message> =
        network.pending_pairs().into_iter().map(|(_, message)| message).collect();
    let mut image = Network::blank();
    for peer in all_peers() {
        let record = network.at(peer);
        *image.at_mut(peer) = Record {
            first: record.first,
            pubs: record.pubs.clone(),
            subs: record.subs.clone(),
            seen: record.seen.difference(&waiting).copied().collect(),
            ..Record::default()
        };
    }
    image
}

/// Refusals 1, 20 to 26, 18 "in that order leave both buffers untouched; the state is never written."
pub fn image(state: &[u8], image: &mut [u8]) -> Checked {
    checked(read(state).and_then(|network| {
        if image.len() != STATE_SIZE {
            return Err(refuse(18, 0));
        }
        image.copy_from_slice(&image_of(&network).bytes());
        Ok(())
    }))
}
