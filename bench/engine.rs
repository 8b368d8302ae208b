//! The calls that are timed, as host/src/interface.rs declares them, and the four who answer them: the proved engine through its static
//! library, plain Rust, and a faster plain Rust without shortcuts and with them. All are called through pointers, so that no call is
//! compiled into the timing.
#[allow(dead_code)]
#[path = "../host/src/interface.rs"]
mod interface;

use crate::{best, plain};
use interface::{relay_copy, relay_drain, relay_forward, relay_image, relay_run};
pub use interface::{Answer, Checked, Drained, Forwarded, Tally};

/// A number, its detail and its place, as every refusal has them.
pub type Refusal = (u8, u8, usize);

impl Answer {
    pub fn refused((number, detail, place): Refusal) -> Answer {
        Answer { number, detail, place, accepted: 0 }
    }
}

impl Forwarded {
    pub fn refused((number, detail, place): Refusal) -> Forwarded {
        Forwarded { number, detail, place, deliveries: 0, receivers: 0 }
    }
}

impl Drained {
    pub fn refused((number, detail, place): Refusal) -> Drained {
        Drained { number, detail, place, forwards: 0, rounds: 0, quiet: 0 }
    }
}

impl Checked {
    pub fn of(result: Result<(), Refusal>) -> Checked {
        let (number, detail, place) = result.err().unwrap_or((0, 0, 0));
        Checked { number, detail, place }
    }
}

/// The timed calls: state, table, and what each asks beside them.
#[derive(Clone, Copy)]
pub struct Engine {
    pub run: fn(&mut [u8], &[u8], &[u8], &mut Tally) -> Answer,
    pub forward: fn(&mut [u8], &[u8], u8, u8) -> Forwarded,
    pub drain: fn(&mut [u8], &[u8], u32) -> Drained,
    pub copy: fn(&[u8], &mut [u8]) -> Checked,
    pub image: fn(&[u8], &mut [u8]) -> Checked,
}

pub const PROVED: Engine = Engine { run: proved_run, forward: proved_forward, drain: proved_drain, copy: proved_copy, image: proved_image };
pub const PLAIN: Engine = Engine { run: plain::run, forward: plain::forward, drain: plain::drain, copy: plain::copy, image: plain::image };
pub const BEST: Engine = best::engine::<best::Best>();
pub const SHORTCUTS: Engine = best::engine::<best::Shortcuts>();

/// In the order of the turns and of the columns.
pub const ALL: [Engine; 4] = [PROVED, PLAIN, BEST, SHORTCUTS];

// What the header asks of a caller holds for slices: pointers fit for their lengths, and what is lent for writing overlaps nothing.

fn proved_run(state: &mut [u8], table: &[u8], events: &[u8], tally: &mut Tally) -> Answer {
    // SAFETY: live buffers with their lengths; what is written is borrowed for it alone.
    unsafe { relay_run(state.as_mut_ptr(), state.len(), table.as_ptr(), table.len(), events.as_ptr(), events.len(), tally) }
}

fn proved_forward(state: &mut [u8], table: &[u8], peer: u8, message: u8) -> Forwarded {
    // SAFETY: live buffers with their lengths; what is written is borrowed for it alone.
    unsafe { relay_forward(state.as_mut_ptr(), state.len(), table.as_ptr(), table.len(), peer, message) }
}

fn proved_drain(state: &mut [u8], table: &[u8], budget: u32) -> Drained {
    // SAFETY: live buffers with their lengths; what is written is borrowed for it alone.
    unsafe { relay_drain(state.as_mut_ptr(), state.len(), table.as_ptr(), table.len(), budget) }
}

fn proved_copy(from: &[u8], to: &mut [u8]) -> Checked {
    // SAFETY: live buffers with their lengths; what is written is borrowed for it alone.
    unsafe { relay_copy(from.as_ptr(), from.len(), to.as_mut_ptr(), to.len()) }
}

fn proved_image(state: &[u8], image: &mut [u8]) -> Checked {
    // SAFETY: live buffers with their lengths; what is written is borrowed for it alone.
    unsafe { relay_image(state.as_ptr(), state.len(), image.as_mut_ptr(), image.len()) }
}
