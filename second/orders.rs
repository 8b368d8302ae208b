//! Demand 3 of 00 through the engine alone, with no model: "Each lowers the count of unseen pairs, present
//! desk with message, by exactly one." "The end state is the same for every order." So drains, single
//! forwards in any order and runs of forward records must end in the same bytes.

use crate::cases::{make, Case};
use crate::crash;
use crate::entries::Part;
use crate::inputs::rng::Rng;
use crate::lent::lend;
use crate::model::state::peers_of;
use crate::model::{Answer, Forwarded};
use crate::observed::{messages, word, Forward, RECORD};
use crate::occurrences::{of_length, Occurrence};
use crate::receivers::of_receivers;
use crate::subject::{tally_of, Call, Reply, Subject};

fn pending_pairs(state: &[u8]) -> Vec<(u8, u8)> {
    let pairs = (0..32).flat_map(|p| (0..64).map(move |m| (p, m)));
    pairs.filter(|(p, m)| messages(state, *p as usize, 16) >> m & 1 == 1).collect()
}

/// "unseen pairs, present desk with message"
fn unseen_pairs(state: &[u8]) -> u32 {
    (0..32).filter(|p| state[RECORD * p] == 1).map(|p| messages(state, p, 24).count_zeros()).sum()
}

/// What was found wrong, in words.
fn demand(holds: bool, words: impl Fn() -> String) -> Result<(), String> {
    if holds {
        Ok(())
    } else {
        Err(words())
    }
}

/// One engine with one table, and what occurred in its single forwards.
struct Trial<'a> {
    subject: &'a mut dyn Subject,
    table: Vec<u8>,
    rng: Rng,
    occurred: Vec<Occurrence>,
}

impl<'a> Trial<'a> {
    fn new(subject: &'a mut dyn Subject, case: &Case, rng: Rng) -> Trial<'a> {
        Trial { subject, table: case.buffers[1].clone(), rng, occurred: Vec::new() }
    }

    fn call(&mut self, call: Call, buffers: &mut [Vec<u8>]) -> Result<Reply, String> {
        let mut lent = lend(&mut self.rng, call, buffers, false);
        crash::call();
        let reply = self.subject.answer(call, &mut lent)?;
        for (buffer, lent) in buffers.iter_mut().zip(&lent) {
            buffer.copy_from_slice(lent.content());
        }
        Ok(reply)
    }

    /// The state after a drain, with the forwards made and whether nothing is pending.
    fn drain(&mut self, state: &[u8], budget: u32) -> Result<(Vec<u8>, u32, bool), String> {
        let mut buffers = [state.to_vec(), self.table.clone()];
        let reply = self.call(Call::Drain { budget }, &mut buffers)?;
        let [after, _] = buffers;
        match reply {
            Reply::Drained(reply) if (reply.number, reply.detail) == (0, 0) => {
                Ok((after, reply.forwards, reply.quiet))
            }
            _ => Err(format!("a drain answers {reply:?}")),
        }
    }

    /// The state after a forward, and the deliveries.
    fn forward(&mut self, state: &[u8], peer: u8, message: u8) -> Result<(Vec<u8>, u32), String> {
        let mut buffers = [state.to_vec(), self.table.clone()];
        let reply = self.call(Call::Forward { peer, message }, &mut buffers)?;
        let [after, _] = buffers;
        match reply {
            Reply::Forwarded(reply) if (reply.number, reply.detail) == (0, 0) => {
                self.receivers(state, peer, message, &after, &reply)?;
                Ok((after, reply.deliveries))
            }
            _ => Err(format!("the forward of {message} by {peer}, pending there, answers {reply:?}")),
        }
    }

    /// Are the receivers as the bytes say? Notes what occurred.
    fn receivers(
        &mut self,
        before: &[u8],
        peer: u8,
        message: u8,
        after: &[u8],
        answer: &Forwarded,
    ) -> Result<(), String> {
        let table = &self.table;
        let wrong = Forward { peer, message, table, before, after, answer }.wrong();
        demand(wrong.is_empty(), || wrong.join("; "))?;
        let topic = table[4 * message as usize] as usize;
        let known = peers_of(word(before, peer as usize, 32 + 4 * topic));
        self.occurred.extend(of_receivers(&known, &answer.receivers));
        Ok(())
    }

    /// Single forwards in any order until nothing is pending: the end, the records and the deliveries.
    fn any_order(&mut self, start: &[u8]) -> Result<(Vec<u8>, Vec<u8>, u64), String> {
        let (mut state, mut records, mut deliveries) = (start.to_vec(), Vec::new(), 0);
        while let Some((peer, message)) = self.rng.pick(&pending_pairs(&state)) {
            let (after, given) = self.forward(&state, peer, message)?;
            let unseen = (unseen_pairs(&state), unseen_pairs(&after));
            demand(unseen.0 == unseen.1 + 1, || {
                format!("unseen pairs before and after a forward: {unseen:?}")
            })?;
            let pending = (pending_pairs(&state).len(), pending_pairs(&after).len());
            demand(pending.0 + given as usize == pending.1 + 1, || {
                format!("{given} deliveries, pending pairs before and after: {pending:?}")
            })?;
            let mut record = [0; 16];
            record[..3].copy_from_slice(&[2, peer, message]);
            records.extend(record);
            deliveries += u64::from(given);
            state = after;
        }
        Ok((state, records, deliveries))
    }

    /// One order by single forwards, then the same order as a run of forward records.
    fn order(&mut self, start: &[u8], end: &[u8], forwards: u32) -> Result<(), String> {
        let (state, records, deliveries) = self.any_order(start)?;
        demand(state == end, || "forwards in another order end in other bytes than a drain".to_string())?;
        let made = records.len() / 16;
        demand(made == forwards as usize, || {
            format!("{made} forwards in one order and {forwards} by a drain")
        })?;
        let mut buffers = [start.to_vec(), self.table.clone(), records, vec![7; 24]];
        let reply = self.call(Call::Run, &mut buffers)?;
        match reply {
            Reply::Answer(Answer { number: 0, detail: 0, place: 0, accepted }) if accepted == made => (),
            _ => return Err(format!("a run of {made} forwards that can be made answers {reply:?}")),
        }
        demand(buffers[0] == end, || "a run of forwards ends in other bytes than a drain".to_string())?;
        let tally = tally_of(&buffers[3]);
        let counts = (tally.produced, tally.forwards, tally.deliveries);
        demand(counts == (0, made as u64, deliveries), || {
            format!("the tally of a run of forwards: {counts:?}")
        })
    }

    fn all(&mut self, start: &[u8]) -> Result<(), String> {
        let (end, forwards, quiet) = self.drain(start, 2048)?;
        demand(quiet && pending_pairs(&end).is_empty(), || "a drain of 2,048 leaves something".to_string())?;
        let unseen = (unseen_pairs(start), unseen_pairs(&end));
        demand(unseen.0 == unseen.1 + forwards, || format!("unseen pairs, {forwards} forwards: {unseen:?}"))?;
        // A drain broken off and a second one come to the same end.
        let budget = self.rng.below(forwards + 1);
        let (part, made, _) = self.drain(start, budget)?;
        demand(made == budget, || format!("a drain of {budget} makes {made} forwards"))?;
        let (whole, more, _) = self.drain(&part, 2048)?;
        demand(whole == end && made + more == forwards, || "two drains end otherwise than one".to_string())?;
        for _ in 0..2 {
            self.order(start, &end, forwards)?;
        }
        self.occurred.push(of_length(forwards));
        Ok(())
    }
}

/// The input of a drain that the engine accepts, from this case of the drains on.
fn accepted_input(subject: &mut dyn Subject, seed: u64, part: usize, number: usize) -> Option<Case> {
    for number in number..number + 40 {
        let case = make(Part::Drain, &mut Rng::for_case(seed, part as u64, number as u64), number);
        let mut trial = Trial::new(subject, &case, Rng::new(0));
        if trial.drain(&case.buffers[0], 0).is_ok() {
            return Some(case);
        }
    }
    None
}

/// Tries one input of the drains, whose part has this index: what occurred, or what is wrong.
pub fn try_input(
    subject: &mut dyn Subject,
    seed: u64,
    drains: usize,
    number: usize,
) -> Result<Vec<Occurrence>, String> {
    // A step that meets drains of every kind.
    let Some(case) = accepted_input(subject, seed, drains, 37 * number) else {
        return Err("none of 40 drains is accepted".to_string());
    };
    let rng = Rng::for_case(seed, 1000 + drains as u64, number as u64);
    let mut trial = Trial::new(subject, &case, rng);
    trial.all(&case.buffers[0])?;
    Ok(trial.occurred)
}
