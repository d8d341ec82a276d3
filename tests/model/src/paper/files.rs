//! "What each call does when it succeeds", on whole files and directory
//! entries: open, close, search, delete, make, rename, attributes, size. The
//! rows of refusal down to 37 have been tested.

use super::calls::Outcome;
use super::control::{self, DR, EX, RC, S1, S2};
use super::directory::{
    any_read_only, entry_at, lowest_empty_slot, slot_of_group, slots_of_file, store_entry, Entry, EMPTY,
};
use super::geometry::{Geometry, RECORD, SLOT};
use super::names::{matches, without_top_bits, ANY};
use super::state::{KeptSearch, State};

/// "Code" is the slot modulo 4.
fn code(slot: usize) -> u32 {
    (slot % 4) as u32
}

/// Whether an entry is the user's, its name matches, and it lies in the group
/// of ex with s2 taken as 0 (or in any group).
fn entry_matches(geometry: &Geometry, entry: &Entry, user: u8, pattern: &[u8], ex: u8) -> bool {
    entry.user() == user
        && matches(pattern, entry.name_bytes())
        && (ex == ANY || geometry.group(entry.extent()) == geometry.group(ex as u32))
}

pub fn open(state: &State, volume: &[u8], control: &mut [u8]) -> Outcome {
    let geometry = &state.geometry;
    let ex = control[EX];
    let hit = |slot: &usize| {
        entry_matches(geometry, &entry_at(volume, *slot), state.user, control::name(control), ex)
    };
    let slot = (0..geometry.slots()).find(hit).ok_or(255u32)?;
    let entry = entry_at(volume, slot);
    control[1..12].copy_from_slice(entry.name_bytes());
    control[16..32].copy_from_slice(entry.map_bytes());
    control[S1] = 0;
    control[S2] = 0;
    control[RC] = entry.count(ex as u32) as u8;
    Ok(code(slot))
}

pub fn close(state: &State, volume: &[u8], control: &[u8]) -> Outcome {
    let geometry = &state.geometry;
    let file = slots_of_file(geometry, volume, state.user, control::name(control));
    let group = geometry.group(control::extent(control));
    slot_of_group(geometry, volume, &file, group).map(code).ok_or(255)
}

pub fn search_first(state: &mut State, volume: &[u8], control: &[u8], buffer: &mut [u8]) -> Outcome {
    let mut name = [0; 11];
    name.copy_from_slice(control::name(control));
    let every_slot = control[DR] == ANY;
    let search = KeptSearch { every_slot, user: state.user, last: 0, name, ex: control[EX] };
    search_from(state, volume, buffer, search, 0)
}

pub fn search_next(state: &mut State, volume: &[u8], buffer: &mut [u8]) -> Outcome {
    let search = state.search.clone().ok_or(255u32)?;
    let from = search.last as usize + 1;
    search_from(state, volume, buffer, search, from)
}

/// The lowest hit from a slot on; with it the buffer gets the directory record
/// and the state keeps the search.
fn search_from(
    state: &mut State,
    volume: &[u8],
    buffer: &mut [u8],
    search: KeptSearch,
    from: usize,
) -> Outcome {
    let geometry = &state.geometry;
    let hit = |slot: &usize| {
        let entry = entry_at(volume, *slot);
        search.every_slot || entry_matches(geometry, &entry, search.user, &search.name, search.ex)
    };
    let slot = (from..geometry.slots()).find(hit).ok_or(255u32)?;
    let record = slot * SLOT / RECORD * RECORD;
    buffer.copy_from_slice(&volume[record..record + RECORD]);
    state.search = Some(KeptSearch { last: slot as u32, ..search });
    Ok(code(slot))
}

pub fn delete(state: &mut State, volume: &mut [u8], control: &[u8]) -> Outcome {
    let geometry = state.geometry;
    let user = state.user;
    let matching = |slot: &usize| {
        let entry = entry_at(volume, *slot);
        entry.user() == user && matches(control::name(control), entry.name_bytes())
    };
    let found: Vec<usize> = (0..geometry.slots()).filter(matching).collect();
    if found.is_empty() {
        return Err(255);
    }
    if any_read_only(volume, &found) {
        return Err(38);
    }
    for slot in found {
        let mut entry = entry_at(volume, slot);
        for &number in entry.map(&geometry).iter().filter(|&&number| geometry.is_data_block(number)) {
            state.holding.give_back(number);
        }
        entry.bytes[0] = EMPTY;
        store_entry(volume, slot, &entry);
    }
    Ok(0)
}

pub fn make(state: &State, volume: &mut [u8], control: &mut [u8]) -> Outcome {
    let geometry = &state.geometry;
    if !slots_of_file(geometry, volume, state.user, control::name(control)).is_empty() {
        return Err(43);
    }
    let slot = lowest_empty_slot(geometry, volume).ok_or(255u32)?;
    let mut user_and_name = [state.user; 12];
    user_and_name[1..].copy_from_slice(&without_top_bits(control::name(control)));
    store_entry(volume, slot, &Entry::new(&user_and_name));
    control[1..12].copy_from_slice(&user_and_name[1..]);
    control[12..32].fill(0);
    Ok(code(slot))
}

pub fn rename(state: &State, volume: &mut [u8], control: &[u8]) -> Outcome {
    let geometry = &state.geometry;
    let file = slots_of_file(geometry, volume, state.user, control::name(control));
    if file.is_empty() {
        return Err(255);
    }
    if any_read_only(volume, &file) {
        return Err(38);
    }
    let new_name = without_top_bits(control::new_name(control));
    if !slots_of_file(geometry, volume, state.user, &new_name).is_empty() {
        return Err(43);
    }
    for slot in file {
        let old = entry_at(volume, slot);
        let mut entry = old;
        entry.bytes[1..12].copy_from_slice(&new_name);
        for attribute in [9, 10] {
            entry.bytes[attribute] |= old.bytes[attribute] & 0x80;
        }
        store_entry(volume, slot, &entry);
    }
    Ok(0)
}

pub fn attributes(state: &State, volume: &mut [u8], control: &[u8]) -> Outcome {
    let file = slots_of_file(&state.geometry, volume, state.user, control::name(control));
    if file.is_empty() {
        return Err(255);
    }
    for slot in file {
        let mut entry = entry_at(volume, slot);
        for attribute in [9, 10] {
            entry.bytes[attribute] = (entry.bytes[attribute] & 0x7F) | (control[attribute] & 0x80);
        }
        store_entry(volume, slot, &entry);
    }
    Ok(0)
}

pub fn size(state: &State, volume: &[u8], control: &mut [u8]) -> Outcome {
    let file = slots_of_file(&state.geometry, volume, state.user, control::name(control));
    let largest = file.iter().map(|&slot| entry_at(volume, slot).size()).max();
    control::show_record(control, largest.ok_or(255u32)?);
    Ok(0)
}
