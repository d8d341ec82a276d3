//! "Control block and position": 36 bytes, and the positions that a call reads
//! from them or shows in them.

use super::directory::Entry;
use super::geometry::extent_of_record;

pub const CONTROL_BYTES: usize = 36;

pub const DR: usize = 0;
pub const EX: usize = 12;
pub const S1: usize = 13;
pub const S2: usize = 14;
pub const RC: usize = 15;
pub const CR: usize = 32;
pub const R0: usize = 33;
pub const R1: usize = 34;
pub const R2: usize = 35;

/// Bytes 1..11.
pub fn name(control: &[u8]) -> &[u8] {
    &control[1..12]
}

/// Rename's new name, bytes 17..27.
pub fn new_name(control: &[u8]) -> &[u8] {
    &control[17..28]
}

/// 32 times s2 plus ex.
pub fn extent(control: &[u8]) -> u32 {
    32 * control[S2] as u32 + control[EX] as u32
}

/// 128 times (32 times s2 plus ex), plus cr.
pub fn sequential_position(control: &[u8]) -> u32 {
    128 * extent(control) + control[CR] as u32
}

/// The record of r0 and r1 (a call goes on only where r2 is 0).
pub fn random_record(control: &[u8]) -> u32 {
    control[R0] as u32 + 256 * control[R1] as u32
}

/// A number into r0 r1 r2, low byte first.
pub fn show_record(control: &mut [u8], number: u32) {
    control[R0] = (number % 256) as u8;
    control[R1] = (number / 256 % 256) as u8;
    control[R2] = (number / 65536 % 256) as u8;
}

/// An extent into ex and s2.
pub fn show_extent(control: &mut [u8], extent: u32) {
    control[EX] = (extent % 32) as u8;
    control[S2] = (extent / 32) as u8;
}

/// "Set to n": ex, s2 from extent n div 128, rc its count, map as in its entry.
pub fn set_to(control: &mut [u8], n: u32, entry: &Entry) {
    let extent = extent_of_record(n);
    show_extent(control, extent);
    control[RC] = entry.count(extent) as u8;
    control[16..32].copy_from_slice(entry.map_bytes());
}
