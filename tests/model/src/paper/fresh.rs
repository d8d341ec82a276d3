//! "A fresh disk from a worn one" (02, xiv): "a copy in good order, written to a
//! second lent volume of the same geometry".

use super::directory::{entry_at, slots_of_file, store_entry, Entry, EMPTY};
use super::geometry::Geometry;

/// The copy of a volume that log-in accepts, records in logical order: "empty
/// slots and free blocks are all E5H".
pub fn fresh(geometry: &Geometry, worn: &[u8]) -> Vec<u8> {
    let block_bytes = geometry.block_bytes as usize;
    let mut copy = vec![EMPTY; worn.len()];
    // "blocks are numbered upward from D as they come"
    let mut number = geometry.directory_blocks as u16;
    for (slot, entry) in in_order(geometry, worn).iter().enumerate() {
        // "entries keep all but their map"
        let mut new = *entry;
        for (place, &old) in entry.map(geometry).iter().enumerate() {
            if old == 0 {
                continue;
            }
            // "Held blocks are copied whole"
            copy[number as usize * block_bytes..][..block_bytes]
                .copy_from_slice(&worn[old as usize * block_bytes..][..block_bytes]);
            new.set_place(geometry, place, number);
            number += 1;
        }
        store_entry(&mut copy, slot, &new);
    }
    copy
}

/// "Files go by their lowest slot, a file's entries by rising extent."
fn in_order(geometry: &Geometry, worn: &[u8]) -> Vec<Entry> {
    let mut ordered = Vec::new();
    for slot in 0..geometry.slots() {
        let entry = entry_at(worn, slot);
        if entry.is_empty() {
            continue;
        }
        let file = slots_of_file(geometry, worn, entry.user(), entry.name_bytes());
        if file[0] != slot {
            continue;
        }
        let mut entries: Vec<Entry> = file.iter().map(|&other| entry_at(worn, other)).collect();
        entries.sort_by_key(Entry::extent);
        ordered.extend(entries);
    }
    ordered
}
