//! The engine's six functions on lent bytes, as they are. Any bytes of any length are fine: the engine answers by number.
//!
//! The types elsewhere in this crate say more; this is for a host that has the bytes and wants the number. Every answer begins
//! with a number, a detail (the neighbour or topic at fault of 23 to 25, otherwise 0) and a place.
//!
//! ```
//! use relay_host::raw;
//!
//! let state = [0; 5120]; // a blank network
//! assert_eq!(raw::check(&state).number, 0);
//! assert_eq!(raw::check(&state[1..]).number, 1); // a state isn't 5,119 bytes
//! ```
//!
//! No function here panics. Where the engine is a process (docs/HOST.md, "On a machine that isn't x86-64") and that process
//! can't be started or ends, the number is [`NO_ENGINE`], and the lent buffers are untouched.

#[cfg(bridged)]
use crate::bridge as engine;
#[cfg(not(bridged))]
use crate::ffi as engine;

pub use crate::interface::{Answer, Checked, Forwarded, Tally};

/// The host's own number, which no engine answers: the engine's process can't be started, or doesn't answer.
pub const NO_ENGINE: u8 = 255;

/// The answer of a drain: the forwards made, the rounds finished, and whether nothing is pending.
#[must_use = "the number says whether the drain was refused"]
#[derive(Clone, Copy, Debug, PartialEq, Eq)]
pub struct Drained {
    pub number: u8,
    pub detail: u8,
    pub place: usize,
    pub forwards: u32,
    pub rounds: u32,
    pub quiet: bool,
}

/// Counts are added; one that would be too large for 64 bits stays at the largest.
impl std::ops::AddAssign for Tally {
    fn add_assign(&mut self, more: Tally) {
        self.produced = self.produced.saturating_add(more.produced);
        self.forwards = self.forwards.saturating_add(more.forwards);
        self.deliveries = self.deliveries.saturating_add(more.deliveries);
    }
}

/// Runs an event list on a state.
pub fn run(state: &mut [u8], table: &[u8], events: &[u8], tally: &mut Tally) -> Answer {
    engine::run(state, table, events, tally)
}

/// Forwards one message. The receivers are a word in which bit q stands for peer q, `deliveries` is how many they are; both are 0
/// if the forward is refused.
pub fn forward(state: &mut [u8], table: &[u8], peer: u8, message: u8) -> Forwarded {
    engine::forward(state, table, peer, message)
}

/// Forwards by rounds until nothing is pending or the budget is spent.
pub fn drain(state: &mut [u8], table: &[u8], budget: u32) -> Drained {
    engine::drain(state, table, budget)
}

/// Writes the commitment image of a state.
pub fn image(state: &[u8], image: &mut [u8]) -> Checked {
    engine::image(state, image)
}

/// Is this a sound state?
pub fn check(state: &[u8]) -> Checked {
    engine::check(state)
}

/// Reads a state from one buffer and writes it to another.
pub fn copy(from: &[u8], to: &mut [u8]) -> Checked {
    engine::copy(from, to)
}

/// An answer of any kind that is dropped unread is a warning, here made an error.
///
/// ```compile_fail
/// #![deny(unused_must_use)]
/// relay_host::raw::run(&mut [], &[], &[], &mut relay_host::Tally::default());
/// ```
/// ```compile_fail
/// #![deny(unused_must_use)]
/// relay_host::raw::forward(&mut [], &[], 0, 0);
/// ```
/// ```compile_fail
/// #![deny(unused_must_use)]
/// relay_host::raw::drain(&mut [], &[], 0);
/// ```
/// ```compile_fail
/// #![deny(unused_must_use)]
/// relay_host::raw::check(&[]);
/// ```
/// ```
/// #![deny(unused_must_use)]
/// let _ = relay_host::raw::run(&mut [], &[], &[], &mut relay_host::Tally::default());
/// let _ = relay_host::raw::forward(&mut [], &[], 0, 0);
/// let _ = relay_host::raw::drain(&mut [], &[], 0);
/// let _ = relay_host::raw::check(&[]);
/// ```
#[cfg(doctest)]
struct Unread;

#[cfg(test)]
mod tests {
    use super::*;

    #[test]
    fn a_tally_stays_at_the_largest_count() {
        let mut tally = Tally { produced: u64::MAX, forwards: 1, deliveries: 2 };
        tally += Tally { produced: 1, forwards: 2, deliveries: u64::MAX - 2 };
        assert_eq!(tally, Tally { produced: u64::MAX, forwards: 3, deliveries: u64::MAX });
    }
}
