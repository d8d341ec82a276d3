//! The seam's entry that cuts a call off: what `churawel_cut` must answer and
//! leave.

use super::drive_bytes::{decode, length_fits};
use super::seam::{Memory, CLOSED_DRIVE, NOT_SERVED};
use crate::paper::calls::{is_served, LOG_INS};
use crate::paper::held::Way;
use crate::paper::inspection;
use crate::paper::state::Drive;
use crate::paper::stores::{lay_down, Asked};

/// The call's refusal in the low 16 bits, 0 where it is not refused, and how many
/// stores were made in the high 16. The machine is gone: the drive is closed after
/// every answer, refusals included, but one that has not the length of its T
/// stays as it is.
pub fn cut(most: u32, function: u8, parameter: u8, memory: &mut Memory) -> u32 {
    if !length_fits(&memory.drive) {
        return CLOSED_DRIVE;
    }
    let drive = decode(&memory.drive);
    memory.drive.fill(0);
    let Some(open) = &drive else { return CLOSED_DRIVE };
    if !is_served(function) {
        return NOT_SERVED;
    }
    if LOG_INS.contains(&function) {
        return inspection::log_in(open.geometry, &memory.volume, Way::Kept).0;
    }
    let geometry = open.geometry;
    let (refusal, stores) = asked(drive, function, parameter, memory).stores();
    let made = stores.len().min(most as usize);
    lay_down(&geometry, &mut memory.volume, &stores[..made]);
    refusal + 65536 * made as u32
}

/// The call with its own copies of what is lent.
pub fn asked(drive: Drive, function: u8, parameter: u8, memory: &Memory) -> Asked {
    let Memory { volume, control, buffer, .. } = memory.clone();
    Asked { drive, function, parameter, volume, control, buffer }
}
