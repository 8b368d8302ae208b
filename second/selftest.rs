//! The model tested alone: A1 to A12 of 01's proved table, 01's example of the run program, the fixed
//! limits, E1's rules (rules.rs), and then 01's and 00's general statements on seeded networks
//! (properties.rs).

#[allow(dead_code)]
mod inputs;
mod model;
mod observed;
mod properties;
mod rules;

use model::calls::{check, copy, drain, forward, image, run};
use model::program::output;
use model::state::{peers_of, Network, Peer};
use model::{Answer, Checked, Drained, Forwarded, Tally};

type Bytes = [u8; 16];

const SKIP: Bytes = [0; 16];

fn join(peer: u8, subs: u8, pubs: u8, neighbours: u8) -> Bytes {
    [6, peer, 0, 0, subs, 0, 0, 0, pubs, 0, 0, 0, neighbours, 0, 0, 0]
}

fn with_message(code: u8, peer: u8, message: u8) -> Bytes {
    let mut bytes = SKIP;
    bytes[..3].copy_from_slice(&[code, peer, message]);
    bytes
}

fn produce(peer: u8, message: u8) -> Bytes {
    with_message(1, peer, message)
}

fn forward_event(peer: u8, message: u8) -> Bytes {
    with_message(2, peer, message)
}

fn leave(peer: u8) -> Bytes {
    with_message(5, peer, 0)
}

/// "H: blank network, then join 0 (pubs {0}), join 1 (subs {0}, neighbours {0}), join 2 (subs {0},
/// neighbours {1})."
fn after_h(more: &[Bytes]) -> Vec<Bytes> {
    let mut events = vec![join(0, 0, 1, 0), join(1, 1, 0, 1), join(2, 1, 0, 2)];
    events.extend(more);
    events
}

/// Runs the events from the blank network. "All message rows zero."
fn outcome(events: &[Bytes]) -> (Answer, Vec<u8>, Tally) {
    let mut state = vec![0; 5120];
    let mut tally = Tally { produced: 7, forwards: 7, deliveries: 7 };
    let answer = run(&mut state, &[0; 256], &events.concat(), &mut tally);
    (answer, state, tally)
}

fn answer(number: u8, place: usize, accepted: usize) -> Answer {
    Answer { number, detail: 0, place, accepted }
}

fn image_bytes(state: &[u8]) -> Vec<u8> {
    let mut bytes = vec![9; 5120];
    assert_eq!(image(state, &mut bytes), Checked { number: 0, detail: 0, place: 0 });
    bytes
}

fn expect(name: &str, events: &[Bytes], expected: Answer) -> Vec<u8> {
    let (found, state, _) = outcome(events);
    assert_eq!(found, expected, "{name}");
    state
}

fn proved_table() {
    let state_h = expect("H", &after_h(&[]), answer(0, 0, 3));
    expect("A1", &[], answer(0, 0, 0));
    let state = expect("A2", &after_h(&[produce(0, 5)]), answer(0, 0, 4));
    assert_eq!(image_bytes(&state), image_bytes(&state_h), "A2: image as after H");
    assert_ne!(state, state_h, "A2: the state itself has changed");
    expect("A3", &after_h(&[produce(0, 5), produce(0, 5)]), answer(12, 4, 4));
    expect("A4", &after_h(&[produce(1, 5)]), answer(10, 3, 3));
    expect("A5", &after_h(&[forward_event(0, 5)]), answer(13, 3, 3));
    expect("A6", &after_h(&[produce(0, 5), leave(0)]), answer(14, 4, 4));
    let a7 = after_h(&[produce(0, 5), forward_event(0, 5), leave(0)]);
    let state = expect("A7", &a7, answer(0, 0, 6));
    let neighbours = Network::parse(&state).at(Peer(1)).neighbours.clone();
    assert_eq!(neighbours, [Peer(2)].into(), "A7: peer 1's neighbours {{2}}");
    let a8 = [a7, vec![join(0, 0, 1, 0), produce(0, 5)]].concat();
    expect("A8", &a8, answer(12, 7, 7));
    expect("A9", &after_h(&[join(3, 0, 0, 0b11000)]), answer(15, 3, 3));
    expect("A9", &after_h(&[join(3, 0, 0, 0b10000)]), answer(16, 3, 3));
    expect("A10", &after_h(&[with_message(7, 0, 0)]), answer(6, 3, 3));
    expect("A10", &after_h(&[with_message(0, 32, 0)]), answer(7, 3, 3));
    expect("A10", &after_h(&[forward_event(0, 64)]), answer(7, 3, 3));
    let produced = expect("A11", &after_h(&[produce(0, 5)]), answer(0, 0, 4));
    for (budget, forwards, rounds, quiet) in [(2048, 3, 3, true), (2, 2, 2, false), (0, 0, 0, false)] {
        let found = drain(&mut produced.clone(), &[0; 256], budget);
        assert_eq!(found, Drained { number: 0, detail: 0, place: 0, forwards, rounds, quiet }, "A11");
    }
    let once = [join(0, 0, 1, 0), produce(0, 5), forward_event(0, 5), leave(0)];
    let a12 = [&once[..], &[join(0, 0, 1, 0), produce(0, 5)]].concat();
    expect("A12", &a12, answer(0, 0, 6));
    println!("A1 to A12: as in the table");
}

/// "For blank, a zero table, and H, produce 0/5, forward 0/5, forward 1/5"
fn example() {
    let events = after_h(&[produce(0, 5), forward_event(0, 5), forward_event(1, 5)]);
    let mut input = vec![0; 5376];
    input.extend(events.concat());
    let text = "FLOOD 0 0 6\nPEER 0 0 0 1\nPEER 1 1 0 1\nPEER 2 1 1 0\n";
    assert_eq!(String::from_utf8(output(&input).1).expect("text"), text);
    let (_, _, tally) = outcome(&events);
    assert_eq!(tally, Tally { produced: 1, forwards: 2, deliveries: 2 });
    println!("the example of the run program: as printed in 01");
}

fn limits_of_the_program() {
    let first_line = |input: Vec<u8>| String::from_utf8(output(&input).1).expect("text");
    assert_eq!(first_line(vec![]), "FLOOD 1 0 0\n");
    assert_eq!(first_line(vec![0; 5119]), "FLOOD 1 0 0\n");
    assert_eq!(first_line(vec![0; 5120]), "FLOOD 2 0 0\n");
    assert_eq!(first_line(vec![0; 5375]), "FLOOD 2 0 0\n");
    assert_eq!(first_line(vec![0; 5376]), "FLOOD 0 0 0\n");
    assert_eq!(first_line(vec![0; 5377]), "FLOOD 3 0 0\n");
    assert_eq!(first_line(vec![0; 65_536]), "FLOOD 0 0 3760\n");
    assert_eq!(first_line(vec![0; 65_537]), "FLOOD 17 0 0\n");
    assert_eq!(first_line(vec![255; 65_536]), "FLOOD 4 0 0\n");
    let mut refused = vec![0; 5376];
    refused.extend(after_h(&[forward_event(1, 5)]).concat());
    let text = "FLOOD 13 3 3\nPEER 0 0 0 0\nPEER 1 1 0 0\nPEER 2 1 0 0\n";
    assert_eq!(first_line(refused), text, "the state is shown after a refused event");
    println!("the limits of the run program: as in 01");
}

/// Each refusal of lent bytes is answered alone and in 01's order, and touches nothing.
fn refusals_in_order() {
    let good = outcome(&after_h(&[produce(0, 5)])).1;
    let mut unsound = good.clone();
    unsound[160 + 12] = 0;
    let (mut bad_row, zero_row) = ([0; 256], [0; 256]);
    bad_row[4 * 63 + 1] = 32;
    let before = Tally { produced: 1, forwards: 2, deliveries: 3 };
    let try_run = |state: &[u8], table: &[u8], events: &[u8]| {
        let (mut lent, mut tally) = (state.to_vec(), before);
        let found = run(&mut lent, table, events, &mut tally);
        assert!(lent == state && tally == before, "untouched");
        assert_eq!(found.accepted, 0);
        (found.number, found.detail, found.place)
    };
    assert_eq!(try_run(&unsound[1..], &bad_row[1..], &[0; 15]), (1, 0, 0));
    assert_eq!(try_run(&unsound, &bad_row[1..], &[0; 15]), (2, 0, 0));
    assert_eq!(try_run(&unsound, &bad_row, &[0; 15]), (3, 0, 0));
    assert_eq!(try_run(&unsound, &bad_row, &[9; 16]), (4, 0, 63));
    // Record 1 lists nobody now: its known subscribers are wrong, but record 0 lists it and is the lowest.
    assert_eq!(try_run(&unsound, &zero_row, &[9; 16]), (24, 1, 0));
    refused_forwards(&good, &unsound, &bad_row);
    refused_copies(&good, &unsound);
    println!("refusals of lent bytes: in 01's order, buffers untouched");
}

fn refused_forwards(good: &[u8], unsound: &[u8], bad_row: &[u8]) {
    let zero_row = [0; 256];
    let try_forward = |state: &[u8], table: &[u8], peer, message| {
        let mut lent = state.to_vec();
        let Forwarded { number, detail, place, deliveries, receivers } =
            forward(&mut lent, table, peer, message);
        assert!(lent == state && deliveries == 0 && receivers.is_empty(), "untouched, nobody receives");
        (number, detail, place)
    };
    assert_eq!(try_forward(&unsound[1..], &bad_row[1..], 32, 64), (1, 0, 0));
    assert_eq!(try_forward(unsound, &bad_row[1..], 32, 64), (2, 0, 0));
    assert_eq!(try_forward(unsound, bad_row, 32, 64), (4, 0, 63));
    assert_eq!(try_forward(unsound, &zero_row, 32, 64), (24, 1, 0));
    assert_eq!(try_forward(good, &zero_row, 32, 5), (7, 0, 0));
    assert_eq!(try_forward(good, &zero_row, 3, 64), (7, 0, 0));
    assert_eq!(try_forward(good, &zero_row, 3, 5), (8, 0, 0));
    assert_eq!(try_forward(good, &zero_row, 1, 5), (13, 0, 0));
}

/// E2 by hand. After H and produce 0/5, each forward names those who newly hold 5; then the same with 31, which
/// is linked to all three and subscribed.
fn receivers() {
    let mut state = outcome(&after_h(&[produce(0, 5)])).1;
    let mut step = |peer, message, receivers: u32| {
        let (deliveries, receivers) = (receivers.count_ones(), peers_of(receivers));
        let expected = Forwarded { number: 0, detail: 0, place: 0, deliveries, receivers };
        assert_eq!(forward(&mut state, &[0; 256], peer, message), expected, "{message} by {peer}");
    };
    // 0 is linked to 1; 1 also to 2, and 0 subscribes to nothing; 2 only to 1, which has seen 5.
    step(0, 5, 0b10);
    step(1, 5, 0b100);
    step(2, 5, 0);
    let mut events = after_h(&[join(31, 1, 1, 0b111), produce(0, 5), forward_event(0, 5)]);
    let (_, mut state, tally) = outcome(&events);
    assert_eq!(tally, Tally { produced: 1, forwards: 1, deliveries: 2 });
    // 5 is pending at 1 and 31 now. 1 knows 2 and 31, and only 2 lacks it; 31 knows 1, which has seen it, and 2.
    let answer = forward(&mut state, &[0; 256], 1, 5);
    assert_eq!((answer.deliveries, answer.receivers), (1, [Peer(2)].into()));
    let answer = forward(&mut state, &[0; 256], 31, 5);
    assert_eq!((answer.deliveries, answer.receivers), (0, [].into()));
    // From 0 to 1 and 31 at once, the highest desk among them.
    events.truncate(5);
    let answer = forward(&mut outcome(&events).1, &[0; 256], 0, 5);
    assert_eq!((answer.deliveries, answer.receivers), (2, peers_of(0x8000_0002)));
    println!("receivers: as worked out by hand");
}

fn refused_copies(good: &[u8], unsound: &[u8]) {
    let untouched = |number, detail, call: &dyn Fn(&mut [u8]) -> Checked, length: usize| {
        let mut lent = vec![7; length];
        assert_eq!(call(&mut lent), Checked { number, detail, place: 0 });
        assert!(lent.iter().all(|byte| *byte == 7), "untouched");
    };
    untouched(1, 0, &|lent| image(&unsound[1..], lent), 5119);
    untouched(24, 1, &|lent| image(unsound, lent), 5119);
    untouched(18, 0, &|lent| image(good, lent), 5119);
    untouched(1, 0, &|lent| copy(&unsound[1..], lent), 5120);
    untouched(24, 1, &|lent| copy(unsound, lent), 5119);
    untouched(1, 0, &|lent| copy(good, lent), 5121);
    assert_eq!(check(good), Checked { number: 0, detail: 0, place: 0 });
}

fn main() {
    proved_table();
    example();
    limits_of_the_program();
    refusals_in_order();
    receivers();
    rules::all(&outcome(&after_h(&[])).1);
    properties::all();
    println!("selftest: all passed");
}
