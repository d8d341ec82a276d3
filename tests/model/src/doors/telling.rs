//! The seam's two entries that tell of a volume: what `churawel_fault` and
//! `churawel_file` must answer and leave. Both lay their bytes into what is the
//! buffer here.

use super::drive_bytes::decode;
use super::seam::Memory;
use crate::paper::bad_slots::first_fault;
use crate::paper::directory::{entry_at, slots_of_file, Entry};
use crate::paper::floppy::logical;
use crate::paper::geometry::Geometry;
use crate::paper::held::Way;
use crate::paper::inspection;

pub const FAULT_BYTES: usize = 32;
pub const LINE_BYTES: usize = 24;

fn put_number(bytes: &mut [u8], at: usize, number: usize) {
    bytes[at..at + 2].copy_from_slice(&(number as u16).to_le_bytes());
}

/// Log-in's answer, and why a slot is bad.
pub fn fault(geometry: Geometry, memory: &mut Memory) -> u32 {
    if memory.buffer.len() != FAULT_BYTES {
        return 35;
    }
    let (answer, value, _) = inspection::log_in(geometry, &memory.volume, Way::Plain);
    memory.buffer.fill(0);
    if answer == 36 {
        put_fault(&geometry, &memory.volume, value as usize, &mut memory.buffer);
    }
    answer + 65536 * value
}

fn put_fault(geometry: &Geometry, volume: &[u8], slot: usize, bytes: &mut [u8]) {
    let volume = &logical(geometry, volume);
    let fault = first_fault(&geometry.straight(), volume, slot).expect("a bad slot breaks a rule");
    bytes[0] = fault.rule;
    bytes[1] = fault.place as u8;
    put_number(bytes, 2, fault.number as usize);
    put_number(bytes, 4, slot);
    bytes[8..20].copy_from_slice(&entry_at(volume, slot).bytes[..12]);
    if let Some(other) = fault.other {
        put_number(bytes, 6, other);
        bytes[20..32].copy_from_slice(&entry_at(volume, other).bytes[..12]);
    }
}

/// The next file from a slot on, by its lowest slot.
pub fn file(from: u32, memory: &mut Memory) -> u32 {
    let Some(state) = decode(&memory.drive) else { return 32 };
    let geometry = &state.geometry;
    if memory.volume.len() != geometry.volume_bytes() {
        return 33;
    }
    if memory.buffer.len() != LINE_BYTES {
        return 35;
    }
    let volume = &logical(geometry, &memory.volume);
    for slot in from as usize..geometry.slots() {
        let entry = entry_at(volume, slot);
        if entry.is_empty() {
            continue;
        }
        let slots = slots_of_file(geometry, volume, entry.user(), &entry.name());
        if slots[0] == slot {
            let line = line(geometry, volume, &slots);
            memory.buffer = line;
            return 65536 * slot as u32;
        }
    }
    255
}

/// User, name, marks, records and blocks of the file in these slots.
fn line(geometry: &Geometry, volume: &[u8], slots: &[usize]) -> Vec<u8> {
    let entries: Vec<_> = slots.iter().map(|&slot| entry_at(volume, slot)).collect();
    let mut bytes = vec![entries[0].user()];
    bytes.extend(entries[0].name());
    for mark in [9, 10] {
        bytes.push(u8::from(entries.iter().any(|entry| entry.bytes[mark] >= 0x80)));
    }
    bytes.extend(entries.iter().map(|entry| entry.size()).max().unwrap_or(0).to_le_bytes());
    let held = |entry: &Entry| entry.map(geometry).iter().filter(|&&number| number != 0).count();
    let blocks: usize = entries.iter().map(held).sum();
    bytes.extend((blocks as u16).to_le_bytes());
    bytes.resize(LINE_BYTES, 0);
    bytes
}
