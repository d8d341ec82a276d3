//! "Volume and entry", the directory: entries as they stand in the volume's
//! slots, and how a file's entries and an empty slot are found.

use std::ops::Deref;

use super::geometry::{Geometry, MAP, SLOT};
use super::names::{without_top_bits, Name};

/// Byte 0 of an empty slot.
pub const EMPTY: u8 = 0xE5;

#[derive(Clone, Copy, PartialEq, Eq, Debug)]
pub struct Entry {
    pub bytes: [u8; SLOT],
}

impl Entry {
    /// Bytes 0 to 11 as given, all else 0.
    pub fn new(user_and_name: &[u8]) -> Entry {
        let mut bytes = [0; SLOT];
        bytes[..12].copy_from_slice(user_and_name);
        Entry { bytes }
    }

    pub fn is_empty(&self) -> bool {
        self.bytes[0] == EMPTY
    }

    pub fn user(&self) -> u8 {
        self.bytes[0]
    }

    pub fn name_bytes(&self) -> &[u8] {
        &self.bytes[1..12]
    }

    /// The name without top bits.
    pub fn name(&self) -> Name {
        without_top_bits(self.name_bytes())
    }

    /// Top bit of byte 9.
    pub fn is_read_only(&self) -> bool {
        self.bytes[9] & 0x80 != 0
    }

    /// E = 32 times s2 plus ex.
    pub fn extent(&self) -> u32 {
        32 * self.bytes[14] as u32 + self.bytes[12] as u32
    }

    pub fn set_extent(&mut self, extent: u32) {
        self.bytes[12] = (extent % 32) as u8;
        self.bytes[14] = (extent / 32) as u8;
    }

    pub fn rc(&self) -> u8 {
        self.bytes[15]
    }

    /// The records that the entry counts for an extent of its group: 128 for
    /// one below its own E, min(rc, 128) for E, 0 above.
    pub fn count(&self, extent: u32) -> u32 {
        let own = self.extent();
        if extent < own {
            128
        } else if extent == own {
            (self.rc() as u32).min(128)
        } else {
            0
        }
    }

    /// 128E + min(rc, 128).
    pub fn size(&self) -> u32 {
        128 * self.extent() + (self.rc() as u32).min(128)
    }

    /// Bytes 16 to 31, as a control block shows them.
    pub fn map_bytes(&self) -> &[u8] {
        &self.bytes[16..32]
    }

    /// The block numbers: a byte each, or, where the volume is wide, "two bytes,
    /// low first".
    pub fn map(&self, geometry: &Geometry) -> Map {
        let mut numbers = [0; MAP];
        for (number, bytes) in numbers.iter_mut().zip(self.map_bytes().chunks(geometry.number_bytes())) {
            *number = bytes.iter().rev().fold(0, |number, &byte| 256 * number + byte as u16);
        }
        Map { numbers, places: geometry.places() }
    }

    pub fn set_place(&mut self, geometry: &Geometry, place: usize, number: u16) {
        let width = geometry.number_bytes();
        self.bytes[16 + width * place..][..width].copy_from_slice(&number_bytes(geometry, number));
    }
}

/// A block number as it stands in entries.
pub fn number_bytes(geometry: &Geometry, number: u16) -> Vec<u8> {
    number.to_le_bytes()[..geometry.number_bytes()].to_vec()
}

/// The block numbers of an entry, place by place.
#[derive(Clone, Copy, Debug)]
pub struct Map {
    numbers: [u16; MAP],
    places: usize,
}

impl Deref for Map {
    type Target = [u16];

    fn deref(&self) -> &[u16] {
        &self.numbers[..self.places]
    }
}

pub fn entry_at(volume: &[u8], slot: usize) -> Entry {
    let mut bytes = [0; SLOT];
    bytes.copy_from_slice(&volume[slot * SLOT..(slot + 1) * SLOT]);
    Entry { bytes }
}

pub fn store_entry(volume: &mut [u8], slot: usize, entry: &Entry) {
    volume[slot * SLOT..(slot + 1) * SLOT].copy_from_slice(&entry.bytes);
}

/// The slots, rising, of a file: all entries of one user and one name.
pub fn slots_of_file(geometry: &Geometry, volume: &[u8], user: u8, name: &[u8]) -> Vec<usize> {
    let name = without_top_bits(name);
    let mut found = Vec::new();
    for slot in 0..geometry.slots() {
        let entry = entry_at(volume, slot);
        if entry.user() == user && entry.name() == name {
            found.push(slot);
        }
    }
    found
}

/// The lowest of these slots whose entry is of this group.
pub fn slot_of_group(geometry: &Geometry, volume: &[u8], slots: &[usize], group: u32) -> Option<usize> {
    slots.iter().copied().find(|&slot| geometry.group(entry_at(volume, slot).extent()) == group)
}

pub fn any_read_only(volume: &[u8], slots: &[usize]) -> bool {
    slots.iter().any(|&slot| entry_at(volume, slot).is_read_only())
}

pub fn lowest_empty_slot(geometry: &Geometry, volume: &[u8]) -> Option<usize> {
    (0..geometry.slots()).find(|&slot| entry_at(volume, slot).is_empty())
}
