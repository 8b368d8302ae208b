//! The drain by words. Within a round messages don't meet: whether q gets m depends on who has m alone. So a round takes each peer's
//! messages of one topic together, and gives them to a neighbour by one operation on its words. Where the budget ends within a round,
//! the round is made of what the budget has, the lowest messages of its last peer. Only the peers that hold something pending are visited.
//! (Many topics among many links would go faster message by message, and few topics slower.)
use super::forms::{Form, Table};
use super::{known, long, members, put_long, State, PENDING, SEEN};
use crate::engine::Drained;

/// What changes in a drain.
struct Words {
    pending: [u64; 32],
    seen: [u64; 32],
}

pub fn drain<'a, F: Form>(n: &mut State, table: &F::Table<'a>, budget: u32) -> Drained {
    let mut words = load(n);
    let mut holders = holders(&words.pending, u32::MAX);
    let by_topic = by_topic(table, &words.pending);
    let (mut forwards, mut rounds) = (0, 0);
    let mut cut = false;
    while holders != 0 && forwards < budget && !cut {
        let listed = list(&words.pending, holders, budget - forwards);
        forwards += listed.pairs;
        cut = listed.cut.is_some();
        rounds += u32::from(!cut);
        holders = round::<F>(n, table, &by_topic, &mut words, &listed);
    }
    store(n, &words);
    Drained { number: 0, detail: 0, place: 0, forwards, rounds, quiet: u8::from(holders == 0 && !cut) }
}

fn load(n: &State) -> Words {
    let mut words = Words { pending: [0; 32], seen: [0; 32] };
    for (p, r) in n.iter().enumerate() {
        words.pending[p] = long(r, PENDING);
        words.seen[p] = long(r, SEEN);
    }
    words
}

fn store(n: &mut State, words: &Words) {
    for (p, r) in n.iter_mut().enumerate() {
        put_long(r, PENDING, words.pending[p]);
        put_long(r, SEEN, words.seen[p]);
    }
}

/// Those of a set of peers who hold something pending.
fn holders(pending: &[u64; 32], among: u32) -> u32 {
    members(among).fold(0, |s, p| s | u32::from(pending[p] != 0) << p)
}

/// The messages of each topic, of those that are pending anywhere.
fn by_topic(table: &impl Table, pending: &[u64; 32]) -> [u64; 32] {
    let mut rest = pending.iter().fold(0, |all, w| all | w);
    let mut words = [0; 32];
    while rest != 0 {
        let m = rest.trailing_zeros() as usize;
        words[table.topic(m)] |= rest & rest.wrapping_neg();
        rest &= rest - 1;
    }
    words
}

/// What a round forwards: the peers, their messages, and the number of pairs; and the last peer, where the budget cuts its messages.
struct Listed {
    peers: u32,
    messages: [u64; 32],
    pairs: u32,
    cut: Option<usize>,
}

fn list(pending: &[u64; 32], holders: u32, budget: u32) -> Listed {
    let mut listed = Listed { peers: 0, messages: [0; 32], pairs: 0, cut: None };
    for p in members(holders) {
        let left = budget - listed.pairs;
        let all = pending[p].count_ones();
        listed.peers |= 1 << p;
        listed.pairs += all.min(left);
        if all > left {
            listed.messages[p] = lowest(pending[p], left);
            listed.cut = Some(p);
            break;
        }
        listed.messages[p] = pending[p];
    }
    listed
}

/// The lowest `count` members.
fn lowest(w: u64, count: u32) -> u64 {
    let above = (0..count).fold(w, |rest, _| rest & (rest - 1));
    w & !above
}

/// Forwards what is listed; answers who has something pending of those who were given something.
fn round<'a, F: Form>(n: &State, table: &F::Table<'a>, by_topic: &[u64; 32], words: &mut Words, listed: &Listed) -> u32 {
    for p in members(listed.peers) {
        words.pending[p] &= !listed.messages[p];
        words.seen[p] |= listed.messages[p];
    }
    let mut given = 0;
    for p in members(listed.peers) {
        let singly = listed.cut == Some(p) && !F::CUT_BY_WORDS;
        let mut rest = listed.messages[p];
        while rest != 0 {
            let t = table.topic(rest.trailing_zeros() as usize);
            let to = known(&n[p], t);
            let messages = rest & if singly { rest.wrapping_neg() } else { by_topic[t] };
            give(words, to, messages);
            given |= to;
            rest &= !messages;
        }
    }
    holders(&words.pending, given)
}

/// The messages become pending at each peer of the set that hasn't seen them.
fn give(words: &mut Words, to: u32, messages: u64) {
    for q in members(to) {
        words.pending[q] |= messages & !words.seen[q];
    }
}
