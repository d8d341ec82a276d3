//! (02, vii) "What the shelf holds": the figures of one volume, and of several
//! one after another.

use std::collections::BTreeMap;

use super::directory::{entry_at, slot_of_group};
use super::floppy::logical;
use super::geometry::{extent_of_record, Geometry, RECORDS_AN_EXTENT};
use super::held::{free_blocks, held_by_entries, Way};
use super::inspection::log_in;
use super::names::Name;

/// "Up to 65,535 volumes".
pub const MOST_VOLUMES: u64 = 65_535;
/// No figure is as large as this.
pub const FIGURE_LIMIT: u64 = 1 << 48;
/// The 65,536th volume, and figures outside the rules.
pub const FULL: u32 = 47;
pub const OUTSIDE: u32 = 32;

/// Refused, files, entries, records present, blocks held, blocks free, waste,
/// volumes seen.
pub type Shelf = [u64; 8];

/// "Record n is present if its group has an entry, n mod 128 is below the
/// count, and the map place is not 0."
fn is_present(geometry: &Geometry, volume: &[u8], file: &[usize], n: u32) -> bool {
    let extent = extent_of_record(n);
    slot_of_group(geometry, volume, file, geometry.group(extent)).is_some_and(|slot| {
        let entry = entry_at(volume, slot);
        n % RECORDS_AN_EXTENT < entry.count(extent) && entry.map(geometry)[geometry.place(n)] != 0
    })
}

/// Of a group that has no entry no record is present, so these are passed over.
fn records_present(geometry: &Geometry, volume: &[u8], file: &[usize]) -> u64 {
    let in_group = RECORDS_AN_EXTENT * geometry.extents_an_entry();
    let groups = file.iter().map(|&slot| geometry.group(entry_at(volume, slot).extent()));
    let numbers = groups.flat_map(|group| group * in_group..(group + 1) * in_group);
    numbers.filter(|&n| n < 65_536 && is_present(geometry, volume, file, n)).count() as u64
}

/// What a volume that log-in accepts adds.
fn accepted(geometry: &Geometry, volume: &[u8]) -> Shelf {
    let volume = &logical(geometry, volume)[..];
    let mut files: BTreeMap<(u8, Name), Vec<usize>> = BTreeMap::new();
    for slot in 0..geometry.slots() {
        let entry = entry_at(volume, slot);
        if !entry.is_empty() {
            files.entry((entry.user(), entry.name())).or_default().push(slot);
        }
    }
    let entries = files.values().map(Vec::len).sum::<usize>() as u64;
    let records = files.values().map(|file| records_present(geometry, volume, file)).sum();
    let held = held_by_entries(geometry, volume);
    let free = free_blocks(geometry, &held).count() as u64;
    let blocks = held.len() as u64;
    let waste = blocks * geometry.records_a_block() as u64 - records;
    [0, files.len() as u64, entries, records, blocks, free, waste, 1]
}

/// A volume put on the shelf: the number, and what log-in answered.
pub fn put(shelf: &mut Shelf, geometry: Geometry, volume: &[u8]) -> (u32, u32) {
    if shelf.iter().any(|&figure| figure >= FIGURE_LIMIT) {
        return (OUTSIDE, 0);
    }
    if shelf[7] >= MOST_VOLUMES {
        return (FULL, 0);
    }
    let (said, _, _) = log_in(geometry, volume, Way::Kept);
    let one = if said == 0 { accepted(&geometry, volume) } else { [1, 0, 0, 0, 0, 0, 0, 1] };
    shelf.iter_mut().zip(one).for_each(|(figure, more)| *figure += more);
    (0, said)
}
