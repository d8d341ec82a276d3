//! What request (xii) demands of a cut, on the model itself: where the volume
//! passed inspection and the drive holds what the directory does, what is left
//! passes inspection, every file that the call does not name or match has its
//! records, and of a file that is written every record is as it was or has its
//! new bytes.

use std::collections::BTreeMap;

use crate::doors::cut::asked;
use crate::doors::drive_bytes::decode;
use crate::doors::script::Call;
use crate::doors::seam::Memory;
use crate::paper::calls::*;
use crate::paper::control;
use crate::paper::directory::entry_at;
use crate::paper::floppy::logical;
use crate::paper::geometry::{extent_of_record, Geometry, RECORD};
use crate::paper::held::{held_by_entries, Holding};
use crate::paper::inspection::lowest_bad_slot;
use crate::paper::names::{matches, without_top_bits, Name};
use crate::paper::stores::Asked;

/// User, name and number of the present records, each with its bytes. The volume
/// is in logical record order and passes inspection.
pub type Present<'a> = BTreeMap<(u8, Name, u32), &'a [u8]>;

pub fn present<'a>(geometry: &Geometry, volume: &'a [u8]) -> Present<'a> {
    let mut found = Present::new();
    for slot in 0..geometry.slots() {
        let entry = entry_at(volume, slot);
        if entry.is_empty() {
            continue;
        }
        let records = 128 * geometry.extents_an_entry();
        let first = geometry.group(entry.extent()) * records;
        let map = entry.map(geometry);
        for n in first..first + records {
            let block = map[geometry.place(n)];
            if block != 0 && n % 128 < entry.count(extent_of_record(n)) {
                let begin = geometry.record_begins(block, n);
                found.insert((entry.user(), entry.name(), n), &volume[begin..begin + RECORD]);
            }
        }
    }
    found
}

/// What is wrong with what this call, cut after at most so many stores, has left,
/// if anything is; `before` is what it was lent.
pub fn first_fault(most: u32, call: &Call, before: &Memory, after: &Memory, answer: u32) -> Option<String> {
    let state = decode(&before.drive)?;
    let geometry = state.geometry;
    let volume = &before.volume;
    let is_sound = volume.len() == geometry.volume_bytes()
        && lowest_bad_slot(&geometry, volume).is_none()
        && state.holding == Holding::Kept(held_by_entries(&geometry, volume));
    if !is_sound || !CALLS.contains(&call.function) {
        return None;
    }
    if let Some(slot) = lowest_bad_slot(&geometry, &after.volume) {
        return Some(format!("slot {} of what is left does not pass inspection", slot));
    }
    let user = state.user;
    let whole = asked(Some(state), call.function, call.parameter, before);
    let made = (answer / 65536) as usize;
    if answer % 65536 != 0 && after.volume != before.volume {
        return Some("a refused call has stored something".to_string());
    }
    if (made as u32) < most && left_by(&whole) != after.volume {
        return Some("with enough stores the volume is not the call's".to_string());
    }
    let (before, after) = (logical(&geometry, volume), logical(&geometry, &after.volume));
    let (old, new) = (present(&geometry, &before), present(&geometry, &after));
    if answer % 65536 == 0 && is_write(call.function) {
        written_otherwise(&whole, user, made, &old, &new)
    } else {
        others_differ(|key| answer % 65536 == 0 && names(call, user, key), &old, &new)
    }
}

fn left_by(whole: &Asked) -> Vec<u8> {
    let mut whole = whole.clone();
    whole.done();
    whole.volume
}

fn is_write(function: u8) -> bool {
    [SEQUENTIAL_WRITE, RANDOM_WRITE, ZERO_FILL_WRITE, WRITE_SEVERAL].contains(&function)
}

/// Whether the call names or matches the file.
fn names(call: &Call, user: u8, (of, name, _): &(u8, Name, u32)) -> bool {
    let is = |other: &[u8]| without_top_bits(other) == *name;
    *of == user
        && match call.function {
            DELETE => matches(control::name(&call.control), name),
            RENAME => is(control::name(&call.control)) || is(control::new_name(&call.control)),
            MAKE | ATTRIBUTES => is(control::name(&call.control)),
            _ => false,
        }
}

fn others_differ(named: impl Fn(&(u8, Name, u32)) -> bool, old: &Present, new: &Present) -> Option<String> {
    let all = old.keys().chain(new.keys()).filter(|key| !named(key));
    all.into_iter().find(|key| old.get(key) != new.get(key)).map(|(user, name, n)| {
        let name = String::from_utf8_lossy(name);
        format!("record {} of {} of user {} is not as it was", n, name, user)
    })
}

/// Other files are as they were. Of this one each record that was present is
/// present, with its old bytes or, if it is written, its new ones; the first
/// record written has no third bytes; and those that are done are there.
fn written_otherwise(whole: &Asked, user: u8, made: usize, old: &Present, new: &Present) -> Option<String> {
    let name = without_top_bits(control::name(&whole.control));
    let first = whole.record();
    let pieces: BTreeMap<u32, &[u8]> = (first..).zip(whole.buffer.chunks(RECORD)).collect();
    let is_own = |key: &(u8, Name, u32)| key.0 == user && key.1 == name;
    if let Some(fault) = others_differ(is_own, old, new) {
        return Some(fault);
    }
    for (key, bytes) in old.iter().filter(|(key, _)| is_own(key)) {
        let now = new.get(key);
        if now != Some(bytes) && (now.is_none() || now != pieces.get(&key.2)) {
            return Some(format!("record {} of the file that is written is not kept", key.2));
        }
    }
    let at = |n: u32| (user, name, n);
    let now = new.get(&at(first));
    if now != old.get(&at(first)) && now != pieces.get(&first) {
        return Some(format!("record {} is present with bytes that nobody wrote", first));
    }
    // A single write of 221 makes two stores: its record, and the entry's.
    let done = if whole.function == WRITE_SEVERAL { made / 2 } else { 0 };
    let lost = pieces.iter().take(done).find(|(n, bytes)| new.get(&at(**n)) != Some(bytes));
    lost.map(|(n, _)| format!("record {} was done and is not there", n))
}
