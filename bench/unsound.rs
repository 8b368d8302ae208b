//! States that every engine must refuse, and alike: 20 to 26, the detail and the place. They aren't timed.
use crate::engine::{Checked, Engine, Refusal, Tally};
use crate::inputs::{built, produced, table, three};

/// A byte of a record, its new value, and what the state is then refused by. Desks 0, 1 and 2 stand in a line, 0 holds message 0, and 1
/// and 2 subscribe to topic 0.
const EDITS: [(usize, usize, u8, Refusal); 12] = [
    (9, 0, 2, (20, 0, 9)),
    (2, 3, 1, (20, 0, 2)),
    (7, 4, 1, (21, 0, 7)),
    (31, 159, 128, (21, 0, 31)),
    (2, 12, 0b110, (22, 0, 2)),
    (2, 12, 0b11010, (23, 3, 2)),
    (2, 15, 128, (23, 31, 2)),
    (2, 0, 2, (23, 2, 1)),
    (0, 12, 0b110, (24, 2, 0)),
    (0, 32, 0, (25, 0, 0)),
    (2, 159, 128, (25, 31, 2)),
    (0, 24, 1, (26, 0, 0)),
];

/// Stops the program where an engine refuses a state otherwise, or touches it.
pub fn compare(engines: &[Engine]) {
    let table = table(1);
    let sound = built(&table, &[three(), produced(1)].concat());
    for (peer, byte, value, refusal) in EDITS {
        let mut state = sound.clone();
        state[160 * peer + byte] = value;
        for engine in engines {
            let said = refusals(engine, &state, &table);
            assert!(said.iter().all(|found| *found == refusal), "{said:?} and not {refusal:?}");
        }
    }
}

/// What each call says of a state.
fn refusals(engine: &Engine, state: &[u8], table: &[u8]) -> [Refusal; 5] {
    let (mut lent, mut other) = (state.to_vec(), vec![7; 5120]);
    let ran = (engine.run)(&mut lent, table, &[], &mut Tally::default());
    let forwarded = (engine.forward)(&mut lent, table, 0, 0);
    let drained = (engine.drain)(&mut lent, table, 1);
    let of = |c: Checked| (c.number, c.detail, c.place);
    let (copied, imaged) = (of((engine.copy)(state, &mut other)), of((engine.image)(state, &mut other)));
    assert!(lent == state && other == [7; 5120], "a refused call touches a buffer");
    assert!(forwarded.deliveries == 0 && forwarded.receivers == 0, "a refused forward has receivers");
    [
        (ran.number, ran.detail, ran.place),
        (forwarded.number, forwarded.detail, forwarded.place),
        (drained.number, drained.detail, drained.place),
        copied,
        imaged,
    ]
}
