//! Unsound states through the engine: which number, place and detail each gets, from every entry point, and that the host's
//! words find in the bytes what the engine has found.

mod numbers;

use numbers::Numbers;
use relay_host::fault;
use relay_host::raw::{self, Answer, Checked, Drained, Forwarded, Tally};
use relay_host::{Event, Network, Reason, Refusal, Table};

const STATE: usize = 5120;
const TABLE: [u8; 256] = [0; 256];

/// A byte put into a record: record, place in it, byte.
type Put = (usize, usize, u8);

/// Number, place and detail.
type Said = (u8, usize, u8);

/// Desks 0 - 1 - 2 in a chain and 3 apart; 1 and 2 subscribe to topic 0; messages 0 to 7 are seen at 0 and pending at 1.
fn chain() -> Vec<u8> {
    let joins = ["join 0 pubs 0", "join 1 subs 0 neighbours 0", "join 2 subs 0 neighbours 1", "join 3"];
    let steps = (0..8).flat_map(|message| [format!("produce 0 {message}"), format!("forward 0 {message}")]);
    let lines = joins.map(String::from).into_iter().chain(steps);
    let events: Vec<Event> = lines.map(|line| line.parse().unwrap()).collect();
    let mut network = Network::blank();
    assert_eq!(network.run(&Table::zero(), &events).refusal, None);
    network.bytes().to_vec()
}

fn damaged(puts: &[Put]) -> Vec<u8> {
    let mut state = chain();
    for &(record, at, byte) in puts {
        state[160 * record + at] = byte;
    }
    state
}

/// What every entry point answers to an unsound state, as number, place and detail: the same from each, with nothing written.
fn answer(state: &[u8]) -> Said {
    let Checked { number, place, detail } = raw::check(state);
    let (mut lent, mut other) = (state.to_vec(), vec![9; STATE]);
    let start = Tally { produced: 7, forwards: 8, deliveries: 9 };
    let mut tally = start;
    let ran = raw::run(&mut lent, &TABLE, &[0; 16], &mut tally);
    assert_eq!(ran, Answer { number, detail, place, accepted: 0 });
    let forwarded = raw::forward(&mut lent, &TABLE, 1, 5);
    assert_eq!(forwarded, Forwarded { number, detail, place, deliveries: 0, receivers: 0 });
    let drained = raw::drain(&mut lent, &TABLE, 2048);
    assert_eq!(drained, Drained { number, detail, place, forwards: 0, rounds: 0, quiet: false });
    assert_eq!(raw::image(state, &mut other), Checked { number, detail, place });
    assert_eq!(raw::copy(state, &mut other), Checked { number, detail, place });
    assert!(lent == state && other == [9; STATE] && tally == start, "{number} wrote something");
    (number, place, detail)
}

fn refused(puts: &[Put]) -> Said {
    answer(&damaged(puts))
}

#[test]
fn each_rule_has_its_number_with_place_and_detail() {
    let cases: [(&[Put], Said); 16] = [
        (&[(4, 0, 2)], (20, 4, 0)),
        (&[(31, 0, 255)], (20, 31, 0)),
        (&[(3, 3, 1)], (20, 3, 0)),
        (&[(31, 159, 0x80)], (21, 31, 0)),
        (&[(3, 0, 0), (3, 8, 1)], (21, 3, 0)),
        (&[(3, 12, 8)], (22, 3, 0)),
        (&[(1, 13, 2)], (23, 1, 9)),
        (&[(3, 15, 0x80)], (23, 3, 31)),
        (&[(3, 12, 1)], (24, 3, 0)),
        (&[(0, 12, 6)], (24, 0, 2)),
        (&[(1, 32, 0)], (25, 1, 0)),
        (&[(2, 159, 0x80)], (25, 2, 31)),
        (&[(3, 36, 1)], (25, 3, 1)),
        (&[(0, 16, 0x20)], (26, 0, 0)),
        (&[(1, 24, 0x20)], (26, 1, 0)),
        (&[(3, 23, 0x80), (3, 31, 0x80)], (26, 3, 0)),
    ];
    for (puts, expected) in cases {
        assert_eq!(refused(puts), expected, "{puts:?}");
    }
}

#[test]
fn every_byte_of_an_absent_record_counts() {
    for at in 0..160 {
        let number = if at < 4 { 20 } else { 21 };
        assert_eq!(refused(&[(17, at, 0x40)]), (number, 17, 0), "byte {at}");
    }
}

#[test]
fn the_lowest_record_comes_first_then_its_lowest_rule() {
    assert_eq!(refused(&[(0, 16, 0x20), (3, 0, 2)]), (26, 0, 0), "record 0 by 26, record 3 by 20");
    assert_eq!(refused(&[(3, 16, 1), (3, 24, 1), (4, 0, 2)]), (26, 3, 0), "record 3 by 26, record 4 by 20");
    assert_eq!(refused(&[(1, 32, 0), (2, 12, 6)]), (25, 1, 0), "record 1 by 25, record 2 by 22");
    // One fault after another is put into record 1, each of a lower rule than those before.
    let faults: [(Put, Said); 6] = [
        ((1, 24, 0x20), (26, 1, 0)),
        ((1, 156, 1), (25, 1, 31)),
        ((1, 12, 0x0d), (24, 1, 3)),
        ((1, 15, 0x40), (23, 1, 30)),
        ((1, 12, 0x0f), (22, 1, 0)),
        ((1, 2, 1), (20, 1, 0)),
    ];
    let puts: Vec<Put> = faults.iter().map(|(put, _)| *put).collect();
    for (place, (_, expected)) in faults.iter().enumerate() {
        assert_eq!(refused(&puts[..=place]), *expected);
    }
    // The second byte is tested before the first says that all is absent.
    assert_eq!(refused(&[(9, 1, 1), (9, 8, 1)]), (20, 9, 0));
}

#[test]
fn the_lowest_neighbour_or_topic_is_the_detail() {
    assert_eq!(refused(&[(1, 13, 0x12), (1, 15, 0x80)]), (23, 1, 9), "9, 12 and 31 are absent");
    assert_eq!(refused(&[(0, 12, 0), (0, 32, 0), (2, 12, 0)]), (24, 1, 0), "neither 0 nor 2 lists 1");
    assert_eq!(refused(&[(0, 32, 0), (0, 36, 2), (0, 156, 2)]), (25, 0, 0), "topics 0, 1 and 31");
    assert_eq!(refused(&[(0, 36, 2), (0, 156, 2)]), (25, 0, 1), "topics 1 and 31");
    assert_eq!(refused(&[(1, 12, 0x0d), (1, 13, 2)]), (23, 1, 9), "3 doesn't list 1, but 9 is absent");
}

#[test]
fn only_a_first_byte_of_one_is_present() {
    assert_eq!(refused(&[(2, 0, 2)]), (23, 1, 2), "record 1 lists 2; record 2's own fault comes later");
    assert_eq!(refused(&[(0, 0, 2)]), (20, 0, 0), "record 0's own fault comes first");
    assert_eq!(refused(&[(2, 0, 0)]), (23, 1, 2));
    assert_eq!(answer(&[255; STATE]), (20, 0, 0), "nothing but 255");
    let mut ones = [255; STATE];
    ones[..4].copy_from_slice(&[1, 0, 0, 0]);
    assert_eq!(answer(&ones), (22, 0, 0), "0 is present and lists everybody");
}

#[test]
fn the_other_refusals_stand_before_and_behind() {
    let unsound = damaged(&[(2, 159, 0x80)]);
    let wrong = Checked { number: 25, detail: 31, place: 2 };
    let mut short = [0; 9];
    assert_eq!(raw::image(&unsound, &mut short), wrong, "before 18");
    assert_eq!(raw::copy(&unsound, &mut short), wrong, "before 1 of the buffer that is written");
    let forwarded = raw::forward(&mut unsound.clone(), &TABLE, 32, 64);
    assert_eq!((forwarded.number, forwarded.place, forwarded.detail), (25, 2, 31), "before 7");
    let mut rows = TABLE;
    rows[4 * 7] = 32;
    let ran = raw::run(&mut unsound.clone(), &rows, &[0; 16], &mut Tally::default());
    assert_eq!((ran.number, ran.place, ran.detail), (4, 7, 0), "behind 4");
    let drained = raw::drain(&mut unsound.clone(), &rows, 1);
    assert_eq!((drained.number, drained.place, drained.detail), (4, 7, 0), "behind 4");
    let checked = raw::check(&unsound[1..]);
    assert_eq!(checked, Checked { number: 1, detail: 0, place: 0 }, "behind 1");
    let refusal = Network::read(&unsound).unwrap_err();
    assert_eq!(refusal, Refusal { reason: Reason::KnownSubscribersWrong, place: 2, detail: 31 });
}

#[test]
fn a_refused_event_has_no_detail() {
    let mut state = chain();
    let leave: Event = "leave 1".parse().unwrap();
    let ran = raw::run(&mut state, &TABLE, &leave.encode(), &mut Tally::default());
    assert_eq!(ran, Answer { number: 14, detail: 0, place: 0, accepted: 0 });
    let forwarded = raw::forward(&mut state, &TABLE, 2, 5);
    assert_eq!(forwarded, Forwarded { number: 13, detail: 0, place: 0, deliveries: 0, receivers: 0 });
}

impl Numbers {
    /// Bits turned over in the records of the chain and one more: now in the first bytes, now in links and knowledge, now anywhere.
    fn damage(&mut self, state: &mut [u8]) {
        for _ in 0..=self.below(3) {
            let (from, length) = [(0, 4), (8, 8), (12, 1), (16, 9), (32, 8), (4, 156)][self.below(6)];
            let at = 160 * self.below(5) + from + self.below(length);
            state[at] ^= 1 << self.below(8);
        }
    }
}

#[test]
fn the_words_find_in_the_bytes_what_the_engine_has_found() {
    let sound = chain();
    let mut numbers = Numbers(1);
    let mut times = [0; 27];
    for _ in 0..4000 {
        let mut state = sound.clone();
        numbers.damage(&mut state);
        let Err(refusal) = Network::read(&state) else { continue };
        let found = fault::found(&state, &refusal);
        assert!(found.is_some(), "{refusal}: {:?}", &state[160 * refusal.place..][..160]);
        times[usize::from(refusal.reason.number())] += 1;
    }
    assert!(times[20..].iter().all(|&times| times > 20), "{times:?}");
}
