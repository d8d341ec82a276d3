//! The seam's two entries of the edition desk: what `churawel_replace_siglum` and
//! `churawel_manuscript` must answer and leave.

use super::drive_bytes::decode;
use super::seam::Memory;
use crate::paper::sigla;

/// What is replaced, and where; a siglum as C hands it over, byte 0 low.
#[derive(Clone, Copy, PartialEq, Eq, Debug)]
pub struct Replacement {
    pub chapter: u16,
    pub old: u16,
    pub new: u16,
}

/// The number in the low 16 bits, the matching records in the high 16.
pub fn replace(asked: Replacement, memory: &mut Memory) -> u32 {
    let drive = decode(&memory.drive);
    let (old, new) = (asked.old.to_le_bytes(), asked.new.to_le_bytes());
    match sigla::replace(&drive, &mut memory.volume, &memory.control, asked.chapter, old, new) {
        Ok(count) => 65536 * count,
        Err(number) => number,
    }
}

/// The number in the low 16 bits, which list in the next 16, where the name
/// begins in the high 32.
pub fn manuscript(siglum: u16, own: &[u8], house: &[u8]) -> u64 {
    match sigla::manuscript(siglum.to_le_bytes(), own, house) {
        Ok((list, at)) => ((at as u64) << 32) + 65536 * list as u64,
        Err(number) => number as u64,
    }
}
