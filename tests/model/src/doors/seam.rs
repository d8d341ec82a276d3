//! The emulator's seam: what `churawel_log_in` and `churawel_call` must answer
//! and leave.

use super::desk::Replacement;
use super::drive_bytes::{decode, drive_bytes, encode};
use crate::paper::calls::{self, is_served, Lent, LOG_INS};
use crate::paper::geometry::Geometry;
use crate::paper::held::Way;
use crate::paper::inspection;

/// All that is lent at the seam (to log-in: volume and drive). The buffer is also
/// where `churawel_fault` and `churawel_file` lay their bytes.
#[derive(Clone, Default, PartialEq, Eq, Debug)]
pub struct Memory {
    pub drive: Vec<u8>,
    pub volume: Vec<u8>,
    pub control: Vec<u8>,
    pub buffer: Vec<u8>,
}

/// Something that stands behind the seam's entries. An error is a fault that no
/// lent byte shows.
pub trait Seam: Sync {
    fn log_in(&self, geometry: Geometry, memory: &mut Memory) -> Result<u32, String>;
    fn call(&self, function: u8, parameter: u8, memory: &mut Memory) -> Result<u32, String>;
    fn cut(&self, most: u32, function: u8, parameter: u8, memory: &mut Memory) -> Result<u32, String>;
    fn fault(&self, geometry: Geometry, memory: &mut Memory) -> Result<u32, String>;
    fn file(&self, from: u32, memory: &mut Memory) -> Result<u32, String>;
    fn replace(&self, asked: Replacement, memory: &mut Memory) -> Result<u32, String>;
    fn manuscript(&self, siglum: u16, own: &[u8], house: &[u8]) -> Result<u64, String>;
}

/// A drive that is closed, malformed or of another length.
pub const CLOSED_DRIVE: u32 = 32;
/// A function's number that is not served.
pub const NOT_SERVED: u32 = 31;

/// The number in the low 16 bits, count or slot in the high 16. A drive that has
/// not the length of T stays as it is.
pub fn log_in(geometry: Geometry, memory: &mut Memory) -> u32 {
    if memory.drive.len() != drive_bytes(geometry.blocks) {
        return CLOSED_DRIVE;
    }
    let (answer, value, drive) = inspection::log_in(geometry, &memory.volume, Way::Kept);
    match &drive {
        Some(state) => memory.drive = encode(state),
        None => memory.drive.fill(0),
    }
    answer + 65536 * value
}

/// 13 and 37 log in anew with the geometry that the drive has. Of several
/// records the count done is in the high 16 bits.
pub fn call(function: u8, parameter: u8, memory: &mut Memory) -> u32 {
    let mut drive = decode(&memory.drive);
    let Some(open) = &drive else { return CLOSED_DRIVE };
    if !is_served(function) {
        return NOT_SERVED;
    }
    if LOG_INS.contains(&function) {
        return log_in(open.geometry, memory);
    }
    let mut lent =
        Lent { volume: &mut memory.volume, control: &mut memory.control, buffer: &mut memory.buffer };
    let (answer, value) = calls::call(&mut drive, function, parameter, &mut lent);
    // No call but log-in closes a drive.
    memory.drive = drive.as_ref().map(encode).expect("the drive is open");
    answer + 65536 * value
}
