//! "Numbers of refusal, in order of test": the rows from 33 to 37, which are
//! tested for all calls alike. (32 has been tested, 36 is log-in's only; the
//! rows from 255 on depend on the directory and stand in the calls.)

use super::calls::*;
use super::control::{self, CONTROL_BYTES, CR, DR, EX, R2, S2};
use super::geometry::RECORD;
use super::names::{can_be_typed, is_name, is_pattern, ANY};
use super::state::State;

/// The first of these rows that is met. A row below 34 looks into the control
/// block only because its length has passed.
pub fn first_down_to_37(state: &State, function: u8, parameter: u8, lent: &Lent) -> Option<u32> {
    let control: &[u8] = lent.control;
    if is_lent_volume(function) && lent.volume.len() != state.geometry.volume_bytes() {
        return Some(33);
    }
    if is_lent_control(function) && control.len() != CONTROL_BYTES {
        return Some(34);
    }
    if is_lent_buffer(function) && lent.buffer.len() != RECORD {
        return Some(35);
    }
    if is_lent_control(function) && !drive_allowed(function, control) {
        return Some(42);
    }
    if function == USER && (16..=254).contains(&parameter) {
        return Some(44);
    }
    if !names_allowed(function, control) {
        return Some(39);
    }
    if !new_name_allowed(function, control) {
        return Some(45);
    }
    if !positions_allowed(function, control) {
        return Some(40);
    }
    if is_beyond_last_record(function, control) {
        return Some(6);
    }
    if state.protected && is_changing(function) {
        return Some(37);
    }
    None
}

/// 42: dr is 0 or 1 (search: 63 also).
fn drive_allowed(function: u8, control: &[u8]) -> bool {
    control[DR] <= 1 || searches_every_slot(function, control)
}

/// Search first with dr 3FH: name and ex are not examined.
fn searches_every_slot(function: u8, control: &[u8]) -> bool {
    function == SEARCH_FIRST && control[DR] == ANY
}

/// 39: the names that the call examines are within the byte rule.
fn names_allowed(function: u8, control: &[u8]) -> bool {
    match function {
        USER | PROTECT | SEARCH_NEXT | SET_RANDOM => true,
        SEARCH_FIRST if searches_every_slot(function, control) => true,
        OPEN | SEARCH_FIRST | DELETE => is_pattern(control::name(control)),
        RENAME => is_name(control::name(control)) && is_name(control::new_name(control)),
        _ => is_name(control::name(control)),
    }
}

/// 45, straight after 39: the name of a new file, or a file's new name, can be typed.
fn new_name_allowed(function: u8, control: &[u8]) -> bool {
    match function {
        MAKE => can_be_typed(control::name(control)),
        RENAME => can_be_typed(control::new_name(control)),
        _ => true,
    }
}

/// 40: ex, s2 and cr are not too large where used.
fn positions_allowed(function: u8, control: &[u8]) -> bool {
    match function {
        OPEN => control[EX] <= 31,
        SEARCH_FIRST if searches_every_slot(function, control) => true,
        SEARCH_FIRST => control[EX] <= 31 || control[EX] == ANY,
        CLOSE => control[EX] <= 31 && control[S2] <= 15,
        MAKE => control[EX] == 0,
        SEQUENTIAL_READ | SEQUENTIAL_WRITE | SET_RANDOM => {
            control[EX] <= 31 && control[S2] <= 15 && control[CR] <= 128
        }
        _ => true,
    }
}

/// 6: random, r2 not 0; sequential reads and writes, position 65,536.
fn is_beyond_last_record(function: u8, control: &[u8]) -> bool {
    match function {
        RANDOM_READ | RANDOM_WRITE | ZERO_FILL_WRITE => control[R2] != 0,
        SEQUENTIAL_READ | SEQUENTIAL_WRITE => control::sequential_position(control) == 65536,
        _ => false,
    }
}

/// 37: delete, make, rename, attributes, writes.
fn is_changing(function: u8) -> bool {
    [DELETE, MAKE, RENAME, ATTRIBUTES, SEQUENTIAL_WRITE, RANDOM_WRITE, ZERO_FILL_WRITE].contains(&function)
}
