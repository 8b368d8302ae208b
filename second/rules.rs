//! 20 to 26 on bytes written out: each rule with its detail, through every call and the run program.

use crate::model::calls::{check, copy, drain, forward, image, run};
use crate::model::program::output;
use crate::model::{Answer, Checked, Drained, Forwarded, Tally};

/// A peer, a byte of its record and its new value.
type Edit = (usize, usize, u8);

/// Edits of the state after H, and the number, detail and place that they must be answered by. There 0 and 1
/// are linked and so are 1 and 2; 1 and 2 subscribe to topic 0; all others are absent.
type Row = (&'static [Edit], (u8, u8, usize));

/// Known subscribers of a topic: their first byte.
const fn known(topic: usize) -> usize {
    32 + 4 * topic
}

const ONE_RULE: &[Row] = &[
    (&[(0, 0, 2)], (20, 0, 0)),
    (&[(9, 0, 255)], (20, 0, 9)),
    (&[(5, 1, 128)], (20, 0, 5)),
    (&[(5, 2, 1)], (20, 0, 5)),
    (&[(2, 3, 4)], (20, 0, 2)),
    (&[(7, 4, 1)], (21, 0, 7)),
    (&[(31, 159, 128)], (21, 0, 31)),
    (&[(2, 12, 0b110)], (22, 0, 2)),
    (&[(2, 12, 0b1010)], (23, 3, 2)),
    (&[(2, 15, 0x80)], (23, 31, 2)),
    // 0 has left, and only 1's record has not followed.
    (&[(0, 0, 0), (0, 4, 0), (0, 12, 0), (0, known(0), 0)], (23, 0, 1)),
    // 0 has forgotten the link to 1.
    (&[(0, 12, 0), (0, known(0), 0)], (24, 0, 1)),
    (&[(0, 12, 0b110), (0, known(0), 0b110)], (24, 2, 0)),
    (&[(31, 0, 1), (2, 15, 0x80)], (24, 31, 2)),
    (&[(0, known(0), 0)], (25, 0, 0)),
    (&[(0, known(0), 0b110)], (25, 0, 0)),
    (&[(2, known(30), 0b1)], (25, 30, 2)),
    (&[(2, known(31) + 3, 0x80)], (25, 31, 2)),
    (&[(2, 16, 0x80), (2, 24, 0x80)], (26, 0, 2)),
    (&[(1, 23, 0x80), (1, 31, 0x80)], (26, 0, 1)),
];

/// "the lowest peer or topic at fault"
const SEVERAL_AT_FAULT: &[Row] = &[
    (&[(2, 12, 0b1010), (2, 13, 1), (2, 15, 0x80)], (23, 3, 2)),
    (&[(3, 0, 1), (4, 0, 1), (31, 0, 1), (2, 12, 0b11010), (2, 15, 0x80)], (24, 3, 2)),
    (&[(0, known(1), 0b10), (0, known(31), 0b10)], (25, 1, 0)),
    (&[(0, known(0), 0), (0, known(31), 0b10)], (25, 0, 0)),
    // A peer is present when byte 0 is 1 and not with another byte: it is 1 that lists an absent one.
    (&[(2, 0, 2)], (23, 2, 1)),
    (&[(2, 0, 255)], (23, 2, 1)),
    // 3 does not list 2, but 4 is absent, and that rule comes first.
    (&[(3, 0, 1), (2, 12, 0b11010)], (23, 4, 2)),
];

/// "then its lowest rule"
const SEVERAL_RULES: &[Row] = &[
    (&[(0, 1, 1), (0, 12, 0b11), (0, 16, 1), (0, 24, 1)], (20, 0, 0)),
    (&[(7, 3, 1), (7, 4, 1)], (20, 0, 7)),
    // An absent record is asked for nothing but zeros, whatever else would be wrong with it.
    (&[(7, 12, 0x80), (7, 16, 1), (7, 24, 1)], (21, 0, 7)),
    (&[(2, 12, 0b1110), (2, known(5), 1)], (22, 0, 2)),
    (&[(2, 12, 0b1010), (2, known(5), 1)], (23, 3, 2)),
    (&[(3, 0, 1), (2, 12, 0b1010), (2, known(0), 0)], (24, 3, 2)),
    (&[(2, known(5), 1), (2, 16, 1), (2, 24, 1)], (25, 5, 2)),
];

/// "the lowest unsound record comes first"
const SEVERAL_RECORDS: &[Row] = &[
    (&[(3, 0, 1), (3, 16, 1), (3, 24, 1), (4, 0, 7)], (26, 0, 3)),
    (&[(2, known(5), 1), (3, 4, 1)], (25, 5, 2)),
    (&[(3, 0, 1), (4, 0, 1), (3, 12, 0b10000), (4, 12, 0b10000)], (24, 4, 3)),
    (&[(2, 12, 0b1010), (4, 2, 1)], (23, 3, 2)),
    (&[(2, 12, 0b110), (31, 4, 1)], (22, 0, 2)),
    (&[(7, 4, 1), (8, 0, 2)], (21, 0, 7)),
];

pub fn all(after_h: &[u8]) {
    for rows in [ONE_RULE, SEVERAL_AT_FAULT, SEVERAL_RULES, SEVERAL_RECORDS] {
        for (edits, answer) in rows {
            let mut state = after_h.to_vec();
            edits.iter().for_each(|(peer, byte, value)| state[160 * peer + byte] = *value);
            refused_everywhere(&state, *answer);
        }
    }
    for byte in [1, 2, 255] {
        refused_everywhere(&[byte; 5120], (20, 0, 0));
    }
    println!("20 to 26: each rule with its detail, in E1's order, through every call");
}

/// "20 to 26 .. replace 5" in every call: the same number, detail and place, and nothing touched.
fn refused_everywhere(state: &[u8], (number, detail, place): (u8, u8, usize)) {
    let (mut lent, mut tally) = (state.to_vec(), Tally { produced: 1, forwards: 2, deliveries: 3 });
    let answer = run(&mut lent, &[0; 256], &[9; 16], &mut tally);
    assert_eq!(answer, Answer { number, detail, place, accepted: 0 });
    assert_eq!(tally, Tally { produced: 1, forwards: 2, deliveries: 3 });
    let answer = forward(&mut lent, &[0; 256], 32, 64);
    assert_eq!(answer, Forwarded { number, detail, place, deliveries: 0, receivers: [].into() });
    let answer = drain(&mut lent, &[0; 256], 2048);
    assert_eq!(answer, Drained { number, detail, place, forwards: 0, rounds: 0, quiet: false });
    assert!(lent == state, "untouched");
    let mut other = [7; 5119];
    let refused = Checked { number, detail, place };
    assert_eq!(check(state), refused);
    assert_eq!(image(state, &mut other), refused);
    assert_eq!(copy(state, &mut other), refused);
    assert!(other == [7; 5119], "untouched");
    let text = output(&[state, &[0; 256], &[9; 16]].concat()).1;
    assert_eq!(String::from_utf8(text).expect("text"), format!("FLOOD {number} {place} 0\n"));
}
