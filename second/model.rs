//! The second program's own model of document 01: a network of sets, the seven events, and the calls
//! of the engine on lent bytes. It is written from the papers alone and shares nothing with the crates.
//! A state here is a list of records with ordered sets, never a set packed in a word.

pub mod calls;
pub mod events;
pub mod program;
pub mod soundness;
pub mod state;

use state::Peer;
use std::collections::BTreeSet;

/// "The answer of a run is a number, a place and the count of accepted events." The detail is E1's "lowest
/// peer or topic at fault (0 otherwise)", here and in every other answer.
#[derive(Clone, Copy, Debug, PartialEq, Eq)]
pub struct Answer {
    pub number: u8,
    pub detail: u8,
    pub place: usize,
    pub accepted: usize,
}

/// "produced, forwards, deliveries, 64 bits each"
#[derive(Clone, Copy, Debug, PartialEq, Eq, Default)]
pub struct Tally {
    pub produced: u64,
    pub forwards: u64,
    pub deliveries: u64,
}

/// "a single forward reports their number (0 if refused)". E2: "the set of peers that newly hold the message;
/// the count becomes the size of that set."
#[derive(Clone, Debug, PartialEq, Eq)]
pub struct Forwarded {
    pub number: u8,
    pub detail: u8,
    pub place: usize,
    pub deliveries: u32,
    pub receivers: BTreeSet<Peer>,
}

impl Forwarded {
    /// Refused: nobody receives anything.
    pub fn refused(refusal: Refusal) -> Forwarded {
        let Refusal { number, detail, place } = refusal;
        Forwarded { number, detail, place, deliveries: 0, receivers: BTreeSet::new() }
    }
}

/// "It answers the forwards made, the rounds finished, and whether nothing is pending."
#[derive(Clone, Copy, Debug, PartialEq, Eq)]
pub struct Drained {
    pub number: u8,
    pub detail: u8,
    pub place: usize,
    pub forwards: u32,
    pub rounds: u32,
    pub quiet: bool,
}

/// The answer of reading, of writing and of the image: a number, its detail and a place.
#[derive(Clone, Copy, Debug, PartialEq, Eq)]
pub struct Checked {
    pub number: u8,
    pub detail: u8,
    pub place: usize,
}

/// A refusal of lent bytes: its number, detail and place.
#[derive(Clone, Copy, Debug, PartialEq, Eq)]
pub struct Refusal {
    pub number: u8,
    pub detail: u8,
    pub place: usize,
}

/// Is this the number of a refused event? All others refuse lent bytes.
pub fn refuses_an_event(number: u8) -> bool {
    (6..=16).contains(&number)
}
