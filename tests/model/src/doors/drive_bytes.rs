//! The drive as the bytes that are lent at the emulator's seam: 64, or 544 where
//! the volume is wide.

use crate::paper::geometry::{Geometry, NARROW_BLOCKS};
use crate::paper::held::{Held, Holding};
use crate::paper::state::{Drive, KeptSearch, State};

pub const DRIVE_BYTES: usize = 64;
pub const WIDE_DRIVE_BYTES: usize = 544;

/// Where the placing stands, and where the held words begin.
pub const PLACING: usize = 24;
const WORDS: usize = 32;

/// The length that a drive of so many blocks must have, lawful or not.
pub fn drive_bytes(blocks: u32) -> usize {
    if blocks > NARROW_BLOCKS {
        WIDE_DRIVE_BYTES
    } else {
        DRIVE_BYTES
    }
}

/// The closed value, as long as a drive of so many blocks must be.
pub fn closed(blocks: u32) -> Vec<u8> {
    vec![0; drive_bytes(blocks)]
}

/// Whether the bytes are as many as the T that they name asks for.
pub fn length_fits(bytes: &[u8]) -> bool {
    [DRIVE_BYTES, WIDE_DRIVE_BYTES].contains(&bytes.len()) && bytes.len() == drive_bytes(number_at(bytes, 2))
}

fn number_at(bytes: &[u8], at: usize) -> u32 {
    bytes[at] as u32 + 256 * bytes[at + 1] as u32
}

fn put_number(bytes: &mut [u8], at: usize, number: u32) {
    bytes[at..at + 2].copy_from_slice(&(number as u16).to_le_bytes());
}

/// B, T and D into bytes 0 to 5, the placing into byte 24.
pub fn put_geometry(bytes: &mut [u8], geometry: &Geometry) {
    bytes[PLACING] = geometry.placing as u8;
    put_number(bytes, 0, geometry.block_bytes);
    put_number(bytes, 2, geometry.blocks);
    put_number(bytes, 4, geometry.directory_blocks);
}

/// The bytes of an open state.
pub fn encode(state: &State) -> Vec<u8> {
    let mut bytes = closed(state.geometry.blocks);
    put_geometry(&mut bytes, &state.geometry);
    bytes[6] = state.user;
    bytes[7] = state.protected as u8;
    if let Some(search) = &state.search {
        bytes[8] = if search.every_slot { 2 } else { 1 };
        bytes[9] = search.user;
        put_number(&mut bytes, 10, search.last);
        bytes[12..23].copy_from_slice(&search.name);
        bytes[23] = search.ex;
    }
    if let Holding::Kept(held) = &state.holding {
        hold(&mut bytes[WORDS..], held);
    }
    bytes
}

/// The state of lent bytes; `None` where they count as closed.
pub fn decode(bytes: &[u8]) -> Drive {
    if !length_fits(bytes) || !is_well_formed(bytes) {
        return None;
    }
    let state = State {
        geometry: Geometry {
            placing: bytes[PLACING] as u32,
            ..Geometry::new(number_at(bytes, 0), number_at(bytes, 2), number_at(bytes, 4))
        },
        user: bytes[6],
        protected: bytes[7] == 1,
        search: kept_search(bytes),
        holding: Holding::Kept(held_blocks(&bytes[WORDS..])),
    };
    state.within_rules().then_some(state)
}

/// Whether the bytes are those of some state, within the rules or not.
fn is_well_formed(bytes: &[u8]) -> bool {
    let all_zero = |bytes: &[u8]| bytes.iter().all(|&byte| byte == 0);
    bytes[7] <= 1 && bytes[8] <= 2 && (bytes[8] != 0 || all_zero(&bytes[9..24])) && all_zero(&bytes[25..32])
}

fn kept_search(bytes: &[u8]) -> Option<KeptSearch> {
    if bytes[8] == 0 {
        return None;
    }
    let mut name = [0; 11];
    name.copy_from_slice(&bytes[12..23]);
    let last = number_at(bytes, 10);
    Some(KeptSearch { every_slot: bytes[8] == 2, user: bytes[9], last, name, ex: bytes[23] })
}

/// Block n is bit n mod 8 of byte n div 8.
fn hold(words: &mut [u8], held: &Held) {
    for number in held {
        words[*number as usize / 8] |= 1 << (number % 8);
    }
}

fn held_blocks(words: &[u8]) -> Held {
    let numbers = 0..8 * words.len() as u16;
    numbers.filter(|number| words[*number as usize / 8] >> (number % 8) & 1 == 1).collect()
}
