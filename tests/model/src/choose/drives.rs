//! Drive bytes that no run of calls has left: many are a state within the
//! rules, others count as closed.

use super::geometries::other_geometry;
use super::pool::name_of_pool;
use super::random::Random;
use crate::doors::drive_bytes::{closed, drive_bytes, put_geometry, DRIVE_BYTES, WIDE_DRIVE_BYTES};
use crate::paper::geometry::{Geometry, SLOT};
use crate::paper::names::ANY;

/// Lengths that no drive has.
pub const NO_LENGTHS: [usize; 9] = [0, 1, 32, 63, 65, 128, 543, 545, 600];

/// Some bytes of a length that no drive has, or of the one that a drive of so many
/// blocks must not have.
pub fn drive_of_another_length(r: &mut Random, blocks: u32) -> Vec<u8> {
    if r.percent(50) {
        let length = r.pick(&NO_LENGTHS);
        return r.bytes(length);
    }
    let length = DRIVE_BYTES + WIDE_DRIVE_BYTES - drive_bytes(blocks);
    r.bytes(length)
}

/// Made of the drive as it is, or anew for this geometry.
pub fn wild_drive(r: &mut Random, drive: &[u8], geometry: &Geometry, volume: &[u8]) -> Vec<u8> {
    let mut wild = drive.to_vec();
    if wild.len() != drive_bytes(geometry.blocks) || r.percent(20) {
        wild = closed(geometry.blocks);
        put_geometry(&mut wild, geometry);
        wild[6] = r.below(16) as u8;
    }
    match r.below(34) {
        0..=2 => wild[r.below(DRIVE_BYTES)] = r.byte(),
        3 => wild[r.below(drive_bytes(geometry.blocks))] = r.byte(),
        4..=8 => hold_otherwise(r, &mut wild[32..]),
        9 => wild[6] = r.pick(&[0, 1, 15, 16, 17, 255]),
        10 => wild[7] = r.pick(&[0, 1, 1, 2, 255]),
        11..=15 => keep_pattern(r, &mut wild, geometry, volume),
        16..=18 => keep_every_slot(r, &mut wild, geometry),
        19..=22 => keep_none(r, &mut wild),
        23 => wild[24 + r.below(8)] = r.pick(&[0, 1, 2, 128]),
        24..=25 => put_geometry(&mut wild, &other_geometry(r, geometry)),
        26 => wild.resize(r.pick(&NO_LENGTHS), 0),
        27 => r.fill(&mut wild),
        28..=29 => be_of_another_width(r, &mut wild, geometry),
        30..=31 => put_fitting(r, &mut wild, geometry),
        _ => wild = closed(geometry.blocks),
    }
    wild
}

/// The length of the other width, with T as it was, with zeros alone, or with a T
/// of that width.
fn be_of_another_width(r: &mut Random, drive: &mut Vec<u8>, geometry: &Geometry) {
    let (length, total) = if geometry.is_wide() {
        (DRIVE_BYTES, [2, 40, 255, 256])
    } else {
        (WIDE_DRIVE_BYTES, [257, 258, 2048, 4096])
    };
    drive.resize(length, 0);
    match r.below(3) {
        0 => {}
        1 => drive.fill(0),
        _ => put_geometry(drive, &Geometry { blocks: r.pick(&total), ..*geometry }),
    }
}

/// Another geometry, and the length that it asks for.
fn put_fitting(r: &mut Random, drive: &mut Vec<u8>, geometry: &Geometry) {
    let other = other_geometry(r, geometry);
    drive.resize(drive_bytes(other.blocks % 65536), 0);
    put_geometry(drive, &other);
}

fn hold_otherwise(r: &mut Random, words: &mut [u8]) {
    match r.below(5) {
        0 => words.fill(0),
        1 => words.fill(0xFF),
        2..=3 => r.fill(words),
        _ => words[r.below(words.len())] ^= 1 << r.below(8),
    }
}

/// A kept search of the pattern kind, or one that is no kind but for that.
fn keep_pattern(r: &mut Random, drive: &mut [u8], geometry: &Geometry, volume: &[u8]) {
    drive[8] = r.pick(&[1, 1, 1, 1, 1, 1, 1, 0, 3, 0x81]);
    drive[9] = r.pick(&[0, 0, 1, 15, 16, drive[6]]);
    put_last_slot(r, drive, geometry);
    let slots = geometry.slots().min(volume.len() / SLOT);
    match r.below(4) {
        0 => drive[12..23].fill(ANY),
        1 => drive[12..23].copy_from_slice(&name_of_pool(r)),
        2 if slots > 0 => {
            let at = r.below(slots) * SLOT;
            drive[12..23].copy_from_slice(&volume[at + 1..at + 12]);
        }
        _ => {
            drive[12..23].fill(ANY | 0x80);
            drive[12 + r.below(11)] = r.pick(&[0x20, 0xA0, 0x7F, 0x1F, 0x41, 0xC1]);
        }
    }
    drive[23] = r.pick(&[0, 0, 1, 31, 32, 63, 63, 63, 64, 191]);
}

/// A kept search of the dr 3FH kind, or one that is no kind but for that.
fn keep_every_slot(r: &mut Random, drive: &mut [u8], geometry: &Geometry) {
    drive[8] = r.pick(&[2, 2, 2, 2, 2, 2, 2, 0, 3, 0x82]);
    drive[9] = r.pick(&[0, 1, 15, 16]);
    put_last_slot(r, drive, geometry);
    r.fill(&mut drive[12..24]);
}

/// No kept search, its bytes zero or one of them not.
fn keep_none(r: &mut Random, drive: &mut [u8]) {
    drive[8] = r.pick(&[0, 0, 0, 0, 0, 0, 3, 255]);
    drive[9..24].fill(0);
    if r.percent(75) {
        drive[9 + r.below(15)] = r.pick(&[1, 15, 0x41, 0xFF]);
    }
}

/// Around the limits of a slot's number.
fn put_last_slot(r: &mut Random, drive: &mut [u8], geometry: &Geometry) {
    let slots = geometry.slots();
    let any = r.below(slots);
    let last = r.pick(&[0, 0, 0, 0, any, any, slots - 1, slots, slots + 1, 65535]) as u16;
    drive[10..12].copy_from_slice(&last.to_le_bytes());
}
