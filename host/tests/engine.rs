//! The engine through this crate: the cases of document 01, what it refuses, and that the host's own reading of records
//! agrees with the engine's.

mod numbers;

use numbers::Numbers;
use relay_host::event::{decode_all, RECORD};
use relay_host::raw::{self, Answer, Checked, Forwarded};
use relay_host::{Event, Message, Network, Number, Peer, Reason, Refusal, Set, Table, Tally};

/// The start of the cases: three peers in a chain.
const H: [&str; 3] = ["join 0 pubs 0", "join 1 subs 0 neighbours 0", "join 2 subs 0 neighbours 1"];

fn events(lines: &[&str]) -> Vec<Event> {
    lines.iter().map(|line| line.parse().unwrap()).collect()
}

/// A blank network after these lines, and the answer as number, place, accepted.
fn after(lines: &[&str]) -> (Network, (u8, usize, usize)) {
    let mut network = Network::blank();
    let run = network.run(&Table::zero(), &events(lines));
    let (number, place) = run.refusal.map_or((0, 0), |refusal| (refusal.reason.number(), refusal.place));
    (network, (number, place, run.accepted))
}

/// The answer after H and these lines.
fn answer(lines: &[&str]) -> (u8, usize, usize) {
    after(&[&H[..], lines].concat()).1
}

fn peer(number: u8) -> Peer {
    Peer::new(number).unwrap()
}

/// The set with one member.
fn only(number: u8) -> Set<Peer> {
    [peer(number)].into_iter().collect()
}

#[test]
fn cases_of_document_01() {
    let a7 = ["produce 0 5", "forward 0 5", "leave 0"];
    assert_eq!(after(&[]).1, (0, 0, 0), "A1");
    assert_eq!(answer(&["produce 0 5"]), (0, 0, 4), "A2");
    assert_eq!(answer(&["produce 0 5", "produce 0 5"]), (12, 4, 4), "A3");
    assert_eq!(answer(&["produce 1 5"]), (10, 3, 3), "A4");
    assert_eq!(answer(&["forward 0 5"]), (13, 3, 3), "A5");
    assert_eq!(answer(&["produce 0 5", "leave 0"]), (14, 4, 4), "A6");
    assert_eq!(answer(&a7), (0, 0, 6), "A7");
    assert_eq!(answer(&[&a7[..], &["join 0 pubs 0", "produce 0 5"]].concat()), (12, 7, 7), "A8");
    assert_eq!(answer(&["join 3 neighbours 3,4"]), (15, 3, 3), "A9");
    assert_eq!(answer(&["join 3 neighbours 4"]), (16, 3, 3), "A9");
    let again = ["join 0 pubs 0", "produce 0 5", "forward 0 5", "leave 0", "join 0 pubs 0", "produce 0 5"];
    assert_eq!(after(&again).1, (0, 0, 6), "A12");
}

#[test]
fn images_and_neighbours_of_the_cases() {
    let (start, _) = after(&H);
    let (mut produced, _) = after(&[&H[..], &["produce 0 5"]].concat());
    assert_eq!(produced.image(), start.image(), "A2: image as after H");
    let (left, _) = after(&[&H[..], &["produce 0 5", "forward 0 5", "leave 0"]].concat());
    assert_eq!(left.desk(peer(1)).unwrap().neighbours, only(2), "A7");
    for (budget, forwards, rounds, quiet) in [(2048, 3, 3, true), (2, 2, 2, false), (0, 0, 0, false)] {
        let drained = produced.clone().drain(&Table::zero(), budget).unwrap();
        assert_eq!((drained.forwards, drained.rounds, drained.quiet), (forwards, rounds, quiet), "A11");
    }
    let five = Message::new(5).unwrap();
    assert_eq!(produced.forward(&Table::zero(), peer(0), five), Ok(only(1)));
    let refusal = produced.forward(&Table::zero(), peer(0), five).unwrap_err();
    assert_eq!(refusal, Refusal::at(Reason::NotPending, 0));
}

#[test]
fn damaged_records_of_a10() {
    let skip = |place: usize, byte: u8| {
        let mut record = [0; RECORD];
        record[place] = byte;
        record
    };
    let mut forward = [0; RECORD];
    forward[..3].copy_from_slice(&[2, 0, 64]);
    for (record, reason) in
        [(skip(0, 7), Reason::UnknownCode), (skip(1, 32), Reason::BadField), (forward, Reason::BadField)]
    {
        let (mut network, _) = after(&H);
        let before = network.clone();
        let run = network.run_records(&Table::zero(), &record);
        assert_eq!(run.refusal, Some(Refusal::at(reason, 0)), "A10");
        assert!(network == before && run.accepted == 0);
    }
}

/// State, table and events, and the number, place and detail that refuse them.
type Case<'a> = (&'a [u8], &'a [u8], &'a [u8], (u8, usize, u8));

#[test]
fn wrong_lengths_and_damage_are_refused_and_nothing_is_written() {
    let (network, _) = after(&[&H[..], &["produce 0 5"]].concat());
    let start = Tally { produced: 7, forwards: 8, deliveries: 9 };
    let mut unsound = network.bytes().to_vec();
    unsound[160 + 12] = 0;
    let mut row = [0; 256];
    row[4 * 9 + 2] = 1;
    let sound = network.bytes();
    let cases: [Case; 6] = [
        (&sound[1..], &[0; 255], &[0; 15], (1, 0, 0)),
        (sound, &[0; 257], &[0; 15], (2, 0, 0)),
        (sound, &row, &[0; 15], (3, 0, 0)),
        (&unsound, &row, &[0; 16], (4, 9, 0)),
        (&unsound, &[0; 256], &[7; 16], (24, 0, 1)),
        (&[], &[], &[], (1, 0, 0)),
    ];
    for (state, table, records, (number, place, detail)) in cases {
        let (mut lent, mut tally) = (state.to_vec(), start);
        let answer = raw::run(&mut lent, table, records, &mut tally);
        assert_eq!(answer, Answer { number, detail, place, accepted: 0 });
        assert!(lent == state && tally == start);
    }
    let mut image = [1; 5119];
    assert_eq!(raw::image(sound, &mut image), Checked { number: 18, detail: 0, place: 0 });
    assert_eq!(raw::copy(sound, &mut image), Checked { number: 1, detail: 0, place: 0 });
    assert_eq!(raw::copy(&unsound, &mut image), Checked { number: 24, detail: 1, place: 0 });
    assert_eq!(image, [1; 5119]);
    let refused = |number| Forwarded { number, detail: 0, place: 0, deliveries: 0, receivers: 0 };
    for (peer, message, number) in [(0, 64, 7), (32, 5, 7), (31, 5, 8), (1, 5, 13)] {
        let mut lent = sound.to_vec();
        assert_eq!(raw::forward(&mut lent, &[0; 256], peer, message), refused(number));
        assert!(lent == sound);
    }
}

#[test]
fn files_are_read_only_if_the_engine_accepts_them() {
    let (network, _) = after(&H);
    assert!(Network::read(network.bytes()).unwrap() == network);
    let refusal = Network::read(&network.bytes()[..100]).unwrap_err();
    assert_eq!(refusal.reason, Reason::StateLength);
    let refusal = Table::read(&[0; 255]).err().unwrap();
    assert_eq!(refusal.reason, Reason::TableLength);
    let mut rows = [0; 256];
    rows[4 * 63] = 32;
    let refusal = Table::read(&rows).err().unwrap();
    assert_eq!(refusal, Refusal::at(Reason::TableRow, 63));
    rows[4 * 63] = 31;
    assert_eq!(Table::read(&rows).unwrap().bytes(), rows);
}

impl Numbers {
    /// A record of few peers, topics and messages, so that much of it is accepted; at times damaged.
    fn record(&mut self) -> [u8; RECORD] {
        let code = self.below(7) as u8;
        let mut record = [0; RECORD];
        record[0] = code;
        record[1] = if code == 0 { 0 } else { self.below(6) as u8 };
        record[2] = if matches!(code, 1 | 2) { self.below(4) as u8 } else { 0 };
        record[4] = if matches!(code, 3 | 4 | 6) { self.below(4) as u8 } else { 0 };
        record[8] = if code == 6 { self.below(4) as u8 } else { 0 };
        record[12] = if code == 6 { self.below(64) as u8 } else { 0 };
        if self.below(8) == 0 {
            record[self.below(16)] = self.below(256) as u8;
        }
        record
    }
}

#[test]
fn the_host_reads_records_as_the_engine_does() {
    let mut numbers = Numbers(1);
    let table = Table::zero();
    let mut network = Network::blank();
    let (mut accepted, mut damaged) = (0, 0);
    for _ in 0..4000 {
        let record = numbers.record();
        let run = network.run_records(&table, &record);
        let reason = run.refusal.map(|refusal| refusal.reason);
        let (events, refusal) = decode_all(&record);
        match refusal {
            Some(refusal) => assert_eq!(Some(refusal.reason), reason, "{record:?}"),
            None => assert!(!matches!(reason, Some(Reason::UnknownCode | Reason::BadField)), "{record:?}"),
        }
        for event in events {
            assert_eq!(event.to_string().parse(), Ok(event));
            assert_eq!(event.encode(), record);
        }
        assert_eq!(raw::check(network.bytes()), Checked { number: 0, detail: 0, place: 0 });
        accepted += run.accepted;
        damaged += usize::from(refusal.is_some());
    }
    assert!(accepted > 500 && damaged > 200, "{accepted} accepted, {damaged} damaged");
}
