//! "The calls we serve": their numbers, what each is lent, and one door to all
//! of them but log-in (`inspection`).

use super::control;
use super::floppy::{self, IMAGE_BYTES};
use super::geometry::{EIGHT_INCH, FLOPPY, STRAIGHT};
use super::state::{Drive, State};
use super::{files, records, refusals, several};

/// Both numbers of log-in.
pub const LOG_INS: [u8; 2] = [13, 37];
pub const OPEN: u8 = 15;
pub const CLOSE: u8 = 16;
pub const SEARCH_FIRST: u8 = 17;
pub const SEARCH_NEXT: u8 = 18;
pub const DELETE: u8 = 19;
pub const SEQUENTIAL_READ: u8 = 20;
pub const SEQUENTIAL_WRITE: u8 = 21;
pub const MAKE: u8 = 22;
pub const RENAME: u8 = 23;
pub const PROTECT: u8 = 28;
pub const ATTRIBUTES: u8 = 30;
pub const USER: u8 = 32;
pub const RANDOM_READ: u8 = 33;
pub const RANDOM_WRITE: u8 = 34;
pub const SIZE: u8 = 35;
pub const SET_RANDOM: u8 = 36;
pub const ZERO_FILL_WRITE: u8 = 40;
pub const READ_SEVERAL: u8 = 220;
pub const WRITE_SEVERAL: u8 = 221;

/// The calls other than log-in.
pub const CALLS: [u8; 19] = [
    OPEN,
    CLOSE,
    SEARCH_FIRST,
    SEARCH_NEXT,
    DELETE,
    SEQUENTIAL_READ,
    SEQUENTIAL_WRITE,
    MAKE,
    RENAME,
    PROTECT,
    ATTRIBUTES,
    USER,
    RANDOM_READ,
    RANDOM_WRITE,
    SIZE,
    SET_RANDOM,
    ZERO_FILL_WRITE,
    READ_SEVERAL,
    WRITE_SEVERAL,
];

pub fn is_served(function: u8) -> bool {
    LOG_INS.contains(&function) || CALLS.contains(&function)
}

/// "User, 28 and 36 are lent no volume".
pub fn is_lent_volume(function: u8) -> bool {
    ![USER, PROTECT, SET_RANDOM].contains(&function)
}

/// "Log-in, user and 28 no control block"; nor is search next.
pub fn is_lent_control(function: u8) -> bool {
    !LOG_INS.contains(&function) && ![USER, PROTECT, SEARCH_NEXT].contains(&function)
}

/// "Only search, reads and writes .. a transfer buffer"; 02 (iii) lends one to 40 as well.
pub fn is_lent_buffer(function: u8) -> bool {
    [SEARCH_FIRST, SEARCH_NEXT, SEQUENTIAL_READ, SEQUENTIAL_WRITE, RANDOM_READ, RANDOM_WRITE, ZERO_FILL_WRITE]
        .contains(&function)
        || is_several(function)
}

/// The forms with several records; their parameter is the number of records.
pub fn is_several(function: u8) -> bool {
    [READ_SEVERAL, WRITE_SEVERAL].contains(&function)
}

/// What is put at a call's disposal. A call that is lent no volume, control
/// block or transfer buffer looks at none and changes none.
pub struct Lent<'a> {
    pub volume: &'a mut [u8],
    pub control: &'a mut [u8],
    pub buffer: &'a mut [u8],
}

/// The answer's number, or the number of the refusal, which is given before
/// anything has been changed.
pub type Outcome = Result<u32, u32>;

/// Whether an answer of this call, its number and the value beside it, is no refusal.
pub fn succeeded(function: u8, number: u32, value: u32) -> bool {
    match function {
        OPEN | CLOSE | SEARCH_FIRST | SEARCH_NEXT | MAKE => number <= 3,
        USER => number <= 15,
        // "Records done before a stop stay done and demand 3 counts the call as
        // successful."
        READ_SEVERAL | WRITE_SEVERAL => value > 0,
        _ => number == 0,
    }
}

/// One call other than log-in: its number, and the value beside it, which is 0
/// but for several records. The function is one of `CALLS`.
pub fn call(drive: &mut Drive, function: u8, parameter: u8, lent: &mut Lent) -> (u32, u32) {
    match drive {
        Some(state) if state.geometry.is_floppy() && state.within_rules() => {
            on_floppy(drive, function, parameter, lent)
        }
        _ => on_volume(drive, function, parameter, lent),
    }
}

/// "Every call answers on such an image as on the unskewed volume." Another length
/// is 33 at its old place: no bytes stand for such an image.
fn on_floppy(drive: &mut Drive, function: u8, parameter: u8, lent: &mut Lent) -> (u32, u32) {
    let is_image = lent.volume.len() == IMAGE_BYTES;
    let mut volume = if is_image { floppy::logical(&FLOPPY, lent.volume).into_owned() } else { Vec::new() };
    let mut unskewed = Lent { volume: &mut volume, control: &mut *lent.control, buffer: &mut *lent.buffer };
    place(drive, STRAIGHT);
    let answer = on_volume(drive, function, parameter, &mut unskewed);
    place(drive, EIGHT_INCH);
    floppy::lay_back(lent.volume, &volume);
    answer
}

fn place(drive: &mut Drive, placing: u32) {
    if let Some(state) = drive {
        state.geometry.placing = placing;
    }
}

/// The call on a volume in logical record order.
fn on_volume(drive: &mut Drive, function: u8, parameter: u8, lent: &mut Lent) -> (u32, u32) {
    if is_several(function) {
        return several::several(drive, function, parameter, lent);
    }
    (single(drive, function, parameter, lent), 0)
}

/// One call that is neither log-in nor of several records.
pub fn single(drive: &mut Drive, function: u8, parameter: u8, lent: &mut Lent) -> u32 {
    let state = match drive {
        Some(state) if state.within_rules() => state,
        _ => return 32,
    };
    let outcome = match refusals::first_down_to_37(state, function, parameter, lent) {
        Some(number) => Err(number),
        None => perform(state, function, parameter, lent),
    };
    match outcome {
        Ok(number) | Err(number) => number,
    }
}

fn perform(state: &mut State, function: u8, parameter: u8, lent: &mut Lent) -> Outcome {
    let Lent { volume, control, buffer } = lent;
    match function {
        OPEN => files::open(state, volume, control),
        CLOSE => files::close(state, volume, control),
        SEARCH_FIRST => files::search_first(state, volume, control, buffer),
        SEARCH_NEXT => files::search_next(state, volume, buffer),
        DELETE => files::delete(state, volume, control),
        MAKE => files::make(state, volume, control),
        RENAME => files::rename(state, volume, control),
        ATTRIBUTES => files::attributes(state, volume, control),
        SIZE => files::size(state, volume, control),
        SEQUENTIAL_READ => records::sequential_read(state, volume, control, buffer),
        SEQUENTIAL_WRITE => records::sequential_write(state, volume, control, buffer),
        RANDOM_READ => records::random_read(state, volume, control, buffer),
        RANDOM_WRITE => records::random_write(state, volume, control, buffer),
        ZERO_FILL_WRITE => records::zero_fill_write(state, volume, control, buffer),
        SET_RANDOM => set_random(control),
        USER => user(state, parameter),
        PROTECT => protect(state),
        _ => unreachable!("not one of the calls"),
    }
}

/// 36: the sequential position in r0 r1 r2.
fn set_random(control: &mut [u8]) -> Outcome {
    let position = control::sequential_position(control);
    control::show_record(control, position);
    Ok(0)
}

/// 0..15 sets; 255 answers the current code.
fn user(state: &mut State, parameter: u8) -> Outcome {
    if parameter == 255 {
        return Ok(state.user as u32);
    }
    state.user = parameter;
    Ok(0)
}

/// Protects until the next log-in.
fn protect(state: &mut State) -> Outcome {
    state.protected = true;
    Ok(0)
}
