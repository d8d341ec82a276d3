//! "Inspection at log-in": when a slot is good, and log-in itself.

use std::collections::BTreeSet;

use super::directory::{entry_at, Entry};
use super::floppy::logical;
use super::geometry::Geometry;
use super::held::{free_blocks, held_by_entries, Holding, Way};
use super::names::{is_name, Name};
use super::state::{Drive, State};

/// The rule for the name's bytes, with top bits at bytes 9 and 10 alone.
fn good_name(entry: &Entry) -> bool {
    let top_bit = |i: usize| entry.bytes[i] & 0x80 != 0;
    is_name(entry.name_bytes()) && (1..12).all(|i| i == 9 || i == 10 || !top_bit(i))
}

/// Each number is 0 or from D to T-1, and none but 0 stands there twice.
fn good_map(geometry: &Geometry, entry: &Entry) -> bool {
    let map = entry.map(geometry);
    let good = |i: usize| map[i] == 0 || (geometry.is_data_block(map[i]) && !map[..i].contains(&map[i]));
    (0..map.len()).all(good)
}

/// What the slot's own bytes must fulfil if it is not empty.
fn good_by_itself(geometry: &Geometry, entry: &Entry) -> bool {
    let bytes = &entry.bytes;
    let numbers = bytes[12] <= 31 && bytes[13] == 0 && bytes[14] <= 15 && bytes[15] <= 128;
    entry.user() <= 15 && good_name(entry) && numbers && good_map(geometry, entry)
}

/// What the lower slots that are not empty have.
#[derive(Default)]
struct Lower {
    numbers: BTreeSet<u16>,
    /// User, name and group.
    files: BTreeSet<(u8, Name, u32)>,
}

impl Lower {
    fn has_number_of(&self, geometry: &Geometry, entry: &Entry) -> bool {
        entry.map(geometry).iter().any(|number| *number != 0 && self.numbers.contains(number))
    }

    /// False if the lower slots have the same user, name and group.
    fn add(&mut self, geometry: &Geometry, entry: &Entry) -> bool {
        self.numbers.extend(entry.map(geometry).iter());
        self.files.insert((entry.user(), entry.name(), geometry.group(entry.extent())))
    }
}

/// The lowest bad slot, if any is bad. The geometry is within the rules and
/// the volume has its length.
pub fn lowest_bad_slot(geometry: &Geometry, volume: &[u8]) -> Option<usize> {
    let volume = logical(geometry, volume);
    let mut lower = Lower::default();
    for slot in 0..geometry.slots() {
        let entry = entry_at(&volume, slot);
        if entry.is_empty() {
            continue;
        }
        let taken = lower.has_number_of(geometry, &entry);
        if !good_by_itself(geometry, &entry) || taken || !lower.add(geometry, &entry) {
            return Some(slot);
        }
    }
    None
}

/// Functions 13 and 37: the answer, the number in the count's place, and the
/// drive's new state.
pub fn log_in(geometry: Geometry, volume: &[u8], way: Way) -> (u32, u32, Drive) {
    if !geometry.within_rules() {
        return (32, 0, None);
    }
    if volume.len() != geometry.volume_bytes() {
        return (33, 0, None);
    }
    if let Some(slot) = lowest_bad_slot(&geometry, volume) {
        return (36, slot as u32, None);
    }
    let held = held_by_entries(&geometry, volume);
    let free = free_blocks(&geometry, &held).count() as u32;
    let holding = Holding::new(way, held);
    (0, free, Some(State { geometry, user: 0, protected: false, search: None, holding }))
}
