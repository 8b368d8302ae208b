//! A stand-in for the engine's static library: the same C functions, done by the model. It tries the
//! comparison's own machinery and carries the planted slips of slips.sh.

#[allow(dead_code)]
#[path = "../host/src/interface.rs"]
mod interface;
mod model;

use interface::{
    Answer as CAnswer, Checked as CChecked, Drained as CDrained, Forwarded as CForwarded, Tally as CTally,
};
use model::state::word_of;
use model::{calls, Answer, Checked, Drained, Forwarded, Tally};
use std::slice::{from_raw_parts, from_raw_parts_mut};

/// Each function below is the one that the interface declares: this is not compiled otherwise.
#[allow(dead_code)]
fn as_declared() {
    let _ = [interface::relay_run, relay_run];
    let _ = [interface::relay_forward, relay_forward];
    let _ = [interface::relay_drain, relay_drain];
    let _ = [interface::relay_image, relay_image];
    let _ = [interface::relay_check, relay_check];
    let _ = [interface::relay_copy, relay_copy];
}

fn checked(answer: Checked) -> CChecked {
    let Checked { number, detail, place } = answer;
    CChecked { number, detail, place }
}

#[no_mangle]
pub unsafe extern "C" fn relay_run(
    state: *mut u8,
    state_length: usize,
    table: *const u8,
    table_length: usize,
    events: *const u8,
    events_length: usize,
    tally: *mut CTally,
) -> CAnswer {
    let state = from_raw_parts_mut(state, state_length);
    let table = from_raw_parts(table, table_length);
    let events = from_raw_parts(events, events_length);
    let CTally { produced, forwards, deliveries } = *tally;
    let before = Tally { produced, forwards, deliveries };
    let mut own = before;
    let Answer { number, detail, place, accepted } = calls::run(state, table, events, &mut own);
    // A tally that stays as it is stays untouched.
    if own != before {
        let Tally { produced, forwards, deliveries } = own;
        *tally = CTally { produced, forwards, deliveries };
    }
    CAnswer { number, detail, place, accepted }
}

#[no_mangle]
pub unsafe extern "C" fn relay_forward(
    state: *mut u8,
    state_length: usize,
    table: *const u8,
    table_length: usize,
    peer: u8,
    message: u8,
) -> CForwarded {
    let state = from_raw_parts_mut(state, state_length);
    let table = from_raw_parts(table, table_length);
    let Forwarded { number, detail, place, deliveries, receivers } =
        calls::forward(state, table, peer, message);
    CForwarded { number, detail, place, deliveries, receivers: word_of(&receivers) }
}

#[no_mangle]
pub unsafe extern "C" fn relay_drain(
    state: *mut u8,
    state_length: usize,
    table: *const u8,
    table_length: usize,
    budget: u32,
) -> CDrained {
    let state = from_raw_parts_mut(state, state_length);
    let table = from_raw_parts(table, table_length);
    let Drained { number, detail, place, forwards, rounds, quiet } = calls::drain(state, table, budget);
    CDrained { number, detail, place, forwards, rounds, quiet: u8::from(quiet) }
}

#[no_mangle]
pub unsafe extern "C" fn relay_image(
    state: *const u8,
    state_length: usize,
    image: *mut u8,
    image_length: usize,
) -> CChecked {
    let state = from_raw_parts(state, state_length);
    checked(calls::image(state, from_raw_parts_mut(image, image_length)))
}

#[no_mangle]
pub unsafe extern "C" fn relay_check(state: *const u8, state_length: usize) -> CChecked {
    checked(calls::check(from_raw_parts(state, state_length)))
}

#[no_mangle]
pub unsafe extern "C" fn relay_copy(
    from: *const u8,
    from_length: usize,
    to: *mut u8,
    to_length: usize,
) -> CChecked {
    let from = from_raw_parts(from, from_length);
    checked(calls::copy(from, from_raw_parts_mut(to, to_length)))
}
