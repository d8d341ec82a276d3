//! Several records a call ("02", ii): "Sequential read and write get a form
//! with k records, 1 to 16, and a buffer of 128k bytes; each record goes to its
//! own piece of that buffer. It equals k single calls in order, stopping at the
//! first refused one."

use super::calls::{single, Lent, READ_SEVERAL, SEQUENTIAL_READ, SEQUENTIAL_WRITE};
use super::control::CONTROL_BYTES;
use super::geometry::RECORD;
use super::state::Drive;

/// "It answers how many were done and the stopping number, 0 if none": the
/// number, then the count.
pub fn several(drive: &mut Drive, function: u8, k: u8, lent: &mut Lent) -> (u32, u32) {
    if let Some(number) = first_down_to_35(drive, k, lent) {
        return (number, 0);
    }
    let of_one = if function == READ_SEVERAL { SEQUENTIAL_READ } else { SEQUENTIAL_WRITE };
    let mut done = 0;
    for piece in lent.buffer.chunks_mut(RECORD) {
        let mut one = Lent { volume: &mut *lent.volume, control: &mut *lent.control, buffer: piece };
        // A sequential call that succeeds answers 0.
        let number = single(drive, of_one, 0, &mut one);
        if number != 0 {
            return (number, done);
        }
        done += 1;
    }
    (0, done)
}

/// 32, 33, 34; then "46 for k outside 1..16, before 35; 35 then asks for 128k".
fn first_down_to_35(drive: &Drive, k: u8, lent: &Lent) -> Option<u32> {
    let state = match drive {
        Some(state) if state.within_rules() => state,
        _ => return Some(32),
    };
    if lent.volume.len() != state.geometry.volume_bytes() {
        return Some(33);
    }
    if lent.control.len() != CONTROL_BYTES {
        return Some(34);
    }
    if !(1..=16).contains(&k) {
        return Some(46);
    }
    if lent.buffer.len() != RECORD * k as usize {
        return Some(35);
    }
    None
}
