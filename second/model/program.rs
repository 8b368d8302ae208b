//! What the run program writes for an input.

use super::calls::run;
use super::events::TABLE_SIZE;
use super::state::{all_peers, Network, STATE_SIZE};
use super::{refuses_an_event, Answer, Tally};

/// 17: "program only, tested first: input above 65,536 bytes"
pub const INPUT_LIMIT: usize = 65_536;

/// The answer, and the state to be shown where there is one: "For 0 and any refused event follows, for
/// each present peer rising" a line. "input shorter than 5,120 bytes gives 1, shorter than 5,376 gives 2".
fn outcome(input: &[u8]) -> (Answer, Option<Network>) {
    let refused = |number| (Answer { number, detail: 0, place: 0, accepted: 0 }, None);
    if input.len() > INPUT_LIMIT {
        return refused(17);
    }
    if input.len() < STATE_SIZE {
        return refused(1);
    }
    if input.len() < STATE_SIZE + TABLE_SIZE {
        return refused(2);
    }
    // "state, then table, then events"
    let mut state = input[..STATE_SIZE].to_vec();
    let table = &input[STATE_SIZE..STATE_SIZE + TABLE_SIZE];
    let events = &input[STATE_SIZE + TABLE_SIZE..];
    let answer = run(&mut state, table, events, &mut Tally::default());
    let shown = answer.number == 0 || refuses_an_event(answer.number);
    (answer, shown.then(|| Network::parse(&state)))
}

/// "The run program's first line keeps its three fields", so the detail is not shown. "`PEER `, its number,
/// and how many topics it subscribes to, messages are pending, messages seen."
/// "Single spaces; each line ends in one newline."
pub fn output(input: &[u8]) -> (Answer, Vec<u8>) {
    let (answer, network) = outcome(input);
    let mut text = format!("FLOOD {} {} {}\n", answer.number, answer.place, answer.accepted);
    if let Some(network) = network {
        for peer in all_peers().filter(|peer| network.present(*peer)) {
            let record = network.at(peer);
            let (subs, pending, seen) = (record.subs.len(), record.pending.len(), record.seen.len());
            text.push_str(&format!("PEER {} {} {} {}\n", peer.0, subs, pending, seen));
        }
    }
    (answer, text.into_bytes())
}
