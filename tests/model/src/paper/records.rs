//! "What each call does when it succeeds": reads and writes of records,
//! sequential and random. The rows of refusal down to 37 have been tested.

use super::calls::Outcome;
use super::control::{self, CR};
use super::directory::{
    any_read_only, entry_at, lowest_empty_slot, slot_of_group, slots_of_file, store_entry, Entry,
};
use super::geometry::{extent_of_record, RECORD};
use super::held::free_blocks;
use super::state::State;

pub fn random_read(state: &State, volume: &[u8], control: &mut [u8], buffer: &mut [u8]) -> Outcome {
    let n = control::random_record(control);
    read(state, volume, control, buffer, n, 4)?;
    control[CR] = (n % 128) as u8;
    Ok(0)
}

pub fn sequential_read(state: &State, volume: &[u8], control: &mut [u8], buffer: &mut [u8]) -> Outcome {
    let n = control::sequential_position(control);
    read(state, volume, control, buffer, n, 1)?;
    control[CR] = (n % 128) as u8 + 1;
    Ok(0)
}

pub fn random_write(state: &mut State, volume: &mut [u8], control: &mut [u8], record: &[u8]) -> Outcome {
    let n = control::random_record(control);
    write(state, volume, control, record, n, NewBlock::Stays)?;
    control[CR] = (n % 128) as u8;
    Ok(0)
}

/// 02 (iii): function 40 "is the random write, but a block given for the first
/// time is first filled with zeros".
pub fn zero_fill_write(state: &mut State, volume: &mut [u8], control: &mut [u8], record: &[u8]) -> Outcome {
    let n = control::random_record(control);
    write(state, volume, control, record, n, NewBlock::Cleared)?;
    control[CR] = (n % 128) as u8;
    Ok(0)
}

pub fn sequential_write(state: &mut State, volume: &mut [u8], control: &mut [u8], record: &[u8]) -> Outcome {
    let n = control::sequential_position(control);
    write(state, volume, control, record, n, NewBlock::Stays)?;
    control[CR] = (n % 128) as u8 + 1;
    Ok(0)
}

/// The present record n goes to the buffer. A missing group has the number
/// given: 4 for random, 1 for sequential.
fn read(
    state: &State,
    volume: &[u8],
    control: &mut [u8],
    buffer: &mut [u8],
    n: u32,
    missing_group: u32,
) -> Outcome {
    let geometry = &state.geometry;
    let file = slots_of_file(geometry, volume, state.user, control::name(control));
    if file.is_empty() {
        return Err(3);
    }
    let extent = extent_of_record(n);
    let slot = slot_of_group(geometry, volume, &file, geometry.group(extent)).ok_or(missing_group)?;
    let entry = entry_at(volume, slot);
    let block = entry.map(geometry)[geometry.place(n)];
    if n % 128 >= entry.count(extent) || block == 0 {
        return Err(1);
    }
    if !geometry.is_data_block(block) {
        return Err(41);
    }
    let begin = geometry.record_begins(block, n);
    buffer.copy_from_slice(&volume[begin..begin + RECORD]);
    control::set_to(control, n, &entry);
    Ok(0)
}

/// What becomes of the old bytes of a block that a write gives to a zero place.
#[derive(PartialEq)]
enum NewBlock {
    Stays,
    Cleared,
}

/// The record's 128 bytes are stored as record n.
fn write(
    state: &mut State,
    volume: &mut [u8],
    control: &mut [u8],
    record: &[u8],
    n: u32,
    new_block: NewBlock,
) -> Outcome {
    let geometry = state.geometry;
    let file = slots_of_file(&geometry, volume, state.user, control::name(control));
    if file.is_empty() {
        return Err(3);
    }
    if any_read_only(volume, &file) {
        return Err(38);
    }
    let place = geometry.place(n);
    let existing = slot_of_group(&geometry, volume, &file, geometry.group(extent_of_record(n)));
    let is_new = existing.is_none();
    let (slot, mut entry) = match existing {
        Some(slot) => (slot, entry_at(volume, slot)),
        None => new_group(state, volume, file[0])?,
    };
    let number = entry.map(&geometry)[place];
    if number != 0 && !geometry.is_data_block(number) {
        return Err(41);
    }
    if number == 0 {
        let block = take_block(state, volume, &entry, place)?;
        entry.set_place(&geometry, place, block);
        if new_block == NewBlock::Cleared {
            let bytes = geometry.block_bytes as usize;
            volume[block as usize * bytes..][..bytes].fill(0);
        }
    }
    // Nothing is refused from here on.
    count_in(&mut entry, is_new, n);
    store_entry(volume, slot, &entry);
    let begin = geometry.record_begins(entry.map(&geometry)[place], n);
    volume[begin..begin + RECORD].copy_from_slice(record);
    control::set_to(control, n, &entry);
    Ok(0)
}

/// "A missing group gets the lowest empty slot, with bytes 0 to 11 of the
/// file's lowest entry, s1 0 and a map of zeros." (A missing group has no place
/// that is not 0, so 41 and 5 never meet.)
fn new_group(state: &State, volume: &[u8], lowest: usize) -> Result<(usize, Entry), u32> {
    let slot = lowest_empty_slot(&state.geometry, volume).ok_or(5u32)?;
    Ok((slot, Entry::new(&entry_at(volume, lowest).bytes[..12])))
}

/// "A zero map place gets the lowest free block", which by 02 (ix) is "the lowest
/// free one above the block in the nearest lower used place of the same entry,
/// and the lowest free one where that place or such a block doesn't exist".
fn take_block(state: &mut State, volume: &[u8], entry: &Entry, place: usize) -> Result<u16, u32> {
    let held = state.holding.now(&state.geometry, volume);
    let free: Vec<u16> = free_blocks(&state.geometry, &held).collect();
    let map = entry.map(&state.geometry);
    let lower = map[..place].iter().rev().find(|&&number| number != 0);
    let above = lower.and_then(|number| free.iter().find(|&block| block > number));
    let block = *above.or(free.first()).ok_or(2u32)?;
    state.holding.take(block);
    Ok(block)
}

/// Ex, s2 and rc of the entry after a write of record n.
fn count_in(entry: &mut Entry, is_new: bool, n: u32) {
    let extent = extent_of_record(n);
    let count = (n % 128) as u8 + 1;
    if is_new || extent > entry.extent() {
        entry.set_extent(extent);
        entry.bytes[15] = count;
    } else if extent == entry.extent() {
        entry.bytes[15] = entry.rc().max(count);
    }
}
