//! The engine linked in: the only unsafe code of this crate.
//!
//! What `relay.h` asks of a caller holds for Rust slices: a slice is a pointer that is not null with that many bytes behind it,
//! and what is lent for writing is lent to nobody else. The engine itself takes any bytes; that is proved.

use crate::interface::{self, relay_check, relay_copy, relay_drain, relay_forward, relay_image, relay_run};
use crate::raw::{Answer, Checked, Drained, Forwarded, Tally};

pub fn run(state: &mut [u8], table: &[u8], events: &[u8], tally: &mut Tally) -> Answer {
    // SAFETY: four live buffers with their lengths; the state and the tally are borrowed for writing, so they overlap nothing.
    unsafe {
        relay_run(state.as_mut_ptr(), state.len(), table.as_ptr(), table.len(), events.as_ptr(), events.len(), tally)
    }
}

pub fn forward(state: &mut [u8], table: &[u8], peer: u8, message: u8) -> Forwarded {
    // SAFETY: two live buffers with their lengths; the state is borrowed for writing, so it doesn't overlap the table.
    unsafe { relay_forward(state.as_mut_ptr(), state.len(), table.as_ptr(), table.len(), peer, message) }
}

pub fn drain(state: &mut [u8], table: &[u8], budget: u32) -> Drained {
    // SAFETY: two live buffers with their lengths; the state is borrowed for writing, so it doesn't overlap the table.
    let answer = unsafe { relay_drain(state.as_mut_ptr(), state.len(), table.as_ptr(), table.len(), budget) };
    let interface::Drained { number, detail, place, forwards, rounds, quiet } = answer;
    Drained { number, detail, place, forwards, rounds, quiet: quiet == 1 }
}

pub fn image(state: &[u8], image: &mut [u8]) -> Checked {
    // SAFETY: two live buffers with their lengths; the image is borrowed for writing, so it doesn't overlap the state.
    unsafe { relay_image(state.as_ptr(), state.len(), image.as_mut_ptr(), image.len()) }
}

pub fn check(state: &[u8]) -> Checked {
    // SAFETY: one live buffer with its length, which is only read.
    unsafe { relay_check(state.as_ptr(), state.len()) }
}

pub fn copy(from: &[u8], to: &mut [u8]) -> Checked {
    // SAFETY: two live buffers with their lengths; `to` is borrowed for writing, so it doesn't overlap `from`.
    unsafe { relay_copy(from.as_ptr(), from.len(), to.as_mut_ptr(), to.len()) }
}
