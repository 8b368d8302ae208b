//! What occurred in a case besides its number, in words. entries.rs says which must occur.

use crate::cases::Case;
use crate::model::calls::round;
use crate::model::events::{Table, EVENT_SIZE};
use crate::model::state::{Network, STATE_SIZE};
use crate::model::{refuses_an_event, Answer, Tally};
use crate::receivers;
use crate::subject::{tally_of, Call, Reply};
use crate::unsound;

/// The kinds by their codes.
const KINDS: [&str; 7] = ["skip", "produce", "forward", "subscribe", "unsubscribe", "leave", "join"];

/// What occurred, and how often in the case.
pub type Occurrence = (String, u64);

pub fn once(words: &str) -> Occurrence {
    (words.to_string(), 1)
}

/// Those that are so, once each.
pub fn those(occurrences: &[(bool, &str)]) -> Vec<Occurrence> {
    occurrences.iter().filter(|(is_so, _)| *is_so).map(|(_, words)| once(words)).collect()
}

/// What occurred in a call, by what the model answers and the buffers before and after it.
pub fn of_call(case: &Case, reply: &Reply, after: &[Vec<u8>]) -> Vec<Occurrence> {
    let mut found = match (case.call, reply) {
        (Call::Copy, _) => of_two(case, reply),
        (Call::Run, Reply::Answer(answer)) => of_run(case, answer, &after[3]),
        (Call::Forward { peer, message }, Reply::Forwarded(answer)) => {
            receivers::of_forward(case, answer, peer, message)
        }
        (Call::Drain { budget }, _) => of_drain(case, reply, budget),
        (Call::Image, _) if reply.number() == 0 => {
            let hides = seen_pairs(&case.buffers[0]) > seen_pairs(&after[1]);
            vec![once(if hides { "hides a message" } else { "hides none" })]
        }
        (Call::Image, _) => of_two(case, reply),
        _ => Vec::new(),
    };
    match reply.number() {
        4 => {
            found.extend(of_row(&case.buffers[1], reply.place()));
            found.extend(of_row_first(&case.buffers[0]));
        }
        20..=26 => found.extend(unsound::of_state(&case.buffers[0], reply)),
        _ => (),
    }
    found
}

fn seen_pairs(state: &[u8]) -> u32 {
    let seen = state.chunks(160).flat_map(|record| &record[24..32]);
    seen.map(|byte| byte.count_ones()).sum()
}

fn of_run(case: &Case, answer: &Answer, tally: &[u8]) -> Vec<Occurrence> {
    let mut found = of_events(&case.buffers[2], answer);
    found.extend(receivers::of_run(case, answer));
    if case.buffers[2].len() >= 65_535 * EVENT_SIZE {
        found.extend(of_long(case, answer, &tally_of(tally)));
    }
    found
}

/// For 4, with a state of the right length.
fn of_row_first(state: &[u8]) -> Vec<Occurrence> {
    let unsound = Network::parse(state).lowest_fault().is_some();
    those(&[(unsound, "a row before an unsound record")])
}

/// For a call that reads one buffer and writes another.
fn of_two(case: &Case, reply: &Reply) -> Vec<Occurrence> {
    let long = |i: usize| case.buffers[i].len() == STATE_SIZE;
    match reply.number() {
        1 if !long(0) => vec![once("1 for the one read")],
        1 => vec![once("1 for the one written")],
        20..=26 if !long(1) => vec![once("unsound before a wrong length to write")],
        _ => Vec::new(),
    }
}

/// For 4: which row, and which of its bytes is the first that is wrong.
fn of_row(table: &[u8], place: usize) -> Vec<Occurrence> {
    let row = &table[4 * place..4 * place + 4];
    let byte = (0..4).find(|i| row[*i] > [31, 31, 0, 0][*i]).expect("a wrong byte");
    let which = match place {
        0 => "row 0",
        63 => "row 63",
        _ => "another row",
    };
    vec![once(which), once(&format!("row byte {byte}"))]
}

/// The kinds that were accepted, and what was refused by which number.
fn of_events(events: &[u8], answer: &Answer) -> Vec<Occurrence> {
    let mut counts = [0; 7];
    for event in events.chunks(EVENT_SIZE).take(answer.accepted) {
        counts[event[0] as usize] += 1;
    }
    let kinds = KINDS.iter().zip(counts).filter(|(_, count)| *count > 0);
    let mut found: Vec<Occurrence> = kinds.map(|(kind, count)| (format!("{kind} accepted"), count)).collect();
    if refuses_an_event(answer.number) {
        let code = events[EVENT_SIZE * answer.place];
        found.push(once(&match (answer.number, code) {
            (6, 7) => "code 7".to_string(),
            (6, 255) => "code 255".to_string(),
            (6, _) => "code 8 to 254".to_string(),
            (number, _) => format!("{} by {number}", KINDS[code as usize]),
        }));
        found.push(once(if answer.place == 0 { "refused at place 0" } else { "refused further on" }));
    }
    if answer.number == 0 && events.is_empty() {
        found.push(once("no events"));
    }
    found
}

/// What a long list reaches.
fn of_long(case: &Case, answer: &Answer, tally: &Tally) -> Vec<Occurrence> {
    let begun = answer.number == 0 || refuses_an_event(answer.number);
    those(&[
        (begun && case.buffers[2].iter().all(|byte| *byte == 0), "skips only"),
        (answer.accepted == 65_535, "exactly 65,535 accepted"),
        (answer.accepted == 65_536, "exactly 65,536 accepted"),
        (answer.accepted > 65_535, "accepted above 65,535"),
        (answer.place > 65_535, "place above 65,535"),
        (begun && tally.produced > 65_535, "produced above 65,535"),
        (begun && tally.forwards > 65_535, "forwards above 65,535"),
        (begun && tally.deliveries > 65_535, "deliveries above 65,535"),
    ])
}

fn of_drain(case: &Case, reply: &Reply, budget: u32) -> Vec<Occurrence> {
    let Reply::Drained(answer) = reply else { return Vec::new() };
    if answer.number != 0 {
        return Vec::new();
    }
    let spent = answer.forwards == budget && budget > 0;
    let within = spent && !answer.quiet && ends_within(case, budget);
    let reached = [
        (answer.quiet, "quiet"),
        (!answer.quiet, "not quiet"),
        (answer.forwards == 0 && answer.quiet, "nothing was pending"),
        (budget == 0, "budget 0"),
        (spent && answer.quiet, "budget spent, quiet"),
        (within, "budget spent within a round"),
        (spent && !answer.quiet && !within, "budget spent at the end of a round"),
        (answer.forwards == 2048, "2,048 forwards"),
        (answer.rounds == 32, "32 rounds"),
    ];
    those(&reached)
}

/// Is this budget spent before a round is finished?
fn ends_within(case: &Case, budget: u32) -> bool {
    let mut network = Network::parse(&case.buffers[0]);
    let table = Table::parse(&case.buffers[1]).expect("a good table");
    let mut left = budget;
    loop {
        let (made, finished) = round(&mut network, &table, left);
        left -= made;
        if left == 0 {
            return !finished;
        }
    }
}

/// What occurred in an input of the run program and in what it should write.
pub fn of_input(input: &[u8], pieces: &[usize], number: u8, text: &[u8]) -> Vec<Occurrence> {
    let peers = text.iter().filter(|byte| **byte == b'\n').count() - 1;
    let shown = number == 0 || refuses_an_event(number);
    those(&[
        (input.is_empty(), "0 bytes"),
        (!pieces.is_empty(), "dripped"),
        (input.len() == 65_536, "65,536 bytes"),
        (input.len() == 65_537, "65,537 bytes"),
        (input.len() > 131_072, "more than 131,072 bytes"),
        (input.len() > 60_000 && shown, "a list that fills the input"),
        (peers == 0 && shown, "no peer shown"),
        (peers == 32, "32 peers shown"),
    ])
}

/// The length of an input of the orders, whose drain takes so many forwards.
pub fn of_length(forwards: u32) -> Occurrence {
    once(match forwards {
        0 => "no forward",
        1..=64 => "1 to 64 forwards",
        65..=1000 => "65 to 1,000 forwards",
        _ => "more than 1,000 forwards",
    })
}
