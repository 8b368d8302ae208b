//! The engine's C interface for Rust, declared once: the structs and functions of `relay.h`, and nothing else.
//!
//! The crate (`ffi.rs`), the comparison and its stand-in (`second/`) and the bench (`bench/`) all take this file as a module.
//! It needs only `core`. `tests/interface.rs` holds it to the header, field by field and parameter by parameter.

/// C's `bool` as the byte that it is: 0 or 1. A Rust `bool` with another value would be undefined behaviour; a byte can be tested.
pub type CBool = u8;

/// Accepted produce events, accepted forward events, and the sum of the forwards' deliveries.
#[repr(C)]
#[derive(Clone, Copy, Debug, Default, PartialEq, Eq)]
pub struct Tally {
    pub produced: u64,
    pub forwards: u64,
    pub deliveries: u64,
}

/// The answer of a run: number, detail and place, and the count of accepted events.
#[must_use = "the number says whether the run was refused"]
#[repr(C)]
#[derive(Clone, Copy, Debug, PartialEq, Eq)]
pub struct Answer {
    pub number: u8,
    pub detail: u8,
    pub place: usize,
    pub accepted: usize,
}

/// The answer of a single forward: how many peers newly hold the message, and which, as a set; both 0 if it is refused.
#[must_use = "the number says whether the forward was refused"]
#[repr(C)]
#[derive(Clone, Copy, Debug, PartialEq, Eq)]
pub struct Forwarded {
    pub number: u8,
    pub detail: u8,
    pub place: usize,
    pub deliveries: u32,
    pub receivers: u32,
}

/// The answer of a drain: the forwards made, the rounds finished, and whether nothing is pending.
#[must_use = "the number says whether the drain was refused"]
#[repr(C)]
#[derive(Clone, Copy, Debug, PartialEq, Eq)]
pub struct Drained {
    pub number: u8,
    pub detail: u8,
    pub place: usize,
    pub forwards: u32,
    pub rounds: u32,
    pub quiet: CBool,
}

/// The answer of the functions that only look at a state or copy it.
#[must_use = "the number says whether the state was refused"]
#[repr(C)]
#[derive(Clone, Copy, Debug, PartialEq, Eq)]
pub struct Checked {
    pub number: u8,
    pub detail: u8,
    pub place: usize,
}

// By hand, since the folders that take this file have lines of different widths.
#[rustfmt::skip]
extern "C" {
    pub fn relay_run(
        state: *mut u8,
        state_length: usize,
        table: *const u8,
        table_length: usize,
        events: *const u8,
        events_length: usize,
        tally: *mut Tally,
    ) -> Answer;
    pub fn relay_forward(
        state: *mut u8,
        state_length: usize,
        table: *const u8,
        table_length: usize,
        peer: u8,
        message: u8,
    ) -> Forwarded;
    pub fn relay_drain(
        state: *mut u8,
        state_length: usize,
        table: *const u8,
        table_length: usize,
        budget: u32,
    ) -> Drained;
    pub fn relay_image(state: *const u8, state_length: usize, image: *mut u8, image_length: usize) -> Checked;
    pub fn relay_check(state: *const u8, state_length: usize) -> Checked;
    pub fn relay_copy(from: *const u8, from_length: usize, to: *mut u8, to_length: usize) -> Checked;
}
