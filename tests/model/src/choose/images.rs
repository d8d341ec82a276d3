//! Images that log-in accepts: empty, with some files, with a full directory,
//! with a full disk.

use std::collections::BTreeSet;

use super::pool::{name_of_pool, numbered_name, user};
use super::random::Random;
use crate::paper::directory::{entry_at, store_entry, Entry, EMPTY};
use crate::paper::floppy::{lay_back, IMAGE_BYTES};
use crate::paper::geometry::{Geometry, SLOT};
use crate::paper::names::Name;

#[derive(Clone, Copy, PartialEq, Eq, Debug)]
pub enum Contents {
    Nothing,
    SomeFiles,
    NearlyFullDirectory,
    FullDirectory,
    FullDisk,
    FullBoth,
}

pub fn contents(r: &mut Random) -> Contents {
    r.weighted(&[
        (14, Contents::Nothing),
        (50, Contents::SomeFiles),
        (14, Contents::NearlyFullDirectory),
        (8, Contents::FullDirectory),
        (7, Contents::FullDisk),
        (7, Contents::FullBoth),
    ])
}

/// An image that log-in accepts. What no logical record of a floppy's volume stands
/// in is noise.
pub fn valid_image(r: &mut Random, geometry: Geometry, contents: Contents) -> Vec<u8> {
    let volume = valid_volume(r, geometry.straight(), contents);
    if !geometry.is_floppy() {
        return volume;
    }
    let mut image = r.bytes(IMAGE_BYTES);
    lay_back(&mut image, &volume);
    image
}

/// A volume in logical record order.
fn valid_volume(r: &mut Random, geometry: Geometry, contents: Contents) -> Vec<u8> {
    let mut making = Making::new(r, geometry);
    // Mostly some blocks are kept free while files are added.
    let mut reserve = Vec::new();
    if r.percent(75) {
        let third = making.blocks.len() / 3;
        reserve = making.blocks.split_off(making.blocks.len() - third);
    }
    if contents != Contents::Nothing {
        making.add_files(r);
    }
    making.blocks.extend(reserve);
    if [Contents::FullDisk, Contents::FullBoth].contains(&contents) {
        making.fill_disk(r);
    }
    match contents {
        Contents::NearlyFullDirectory => {
            let but = r.between(1, 4);
            making.fill_directory(r, but);
        }
        Contents::FullDirectory | Contents::FullBoth => making.fill_directory(r, 0),
        _ => {}
    }
    making.volume
}

/// A volume for a geometry outside the rules: its length if that can be, all
/// slots empty.
pub fn image_of_wrong_geometry(r: &mut Random, wrong: &Geometry, most: usize) -> Vec<u8> {
    let length = wrong.volume_bytes();
    if length > most {
        return vec![EMPTY; 8 * 1024];
    }
    let mut volume = r.bytes(length);
    let directory = wrong.directory_blocks as usize * wrong.block_bytes as usize;
    volume[..directory.min(length)].fill(EMPTY);
    volume
}

/// The longest volume that is lent at the seam.
pub const LONGEST_LENT: usize = 9 * 1024 * 1024;

/// Makes a volume's length a wrong one.
pub fn make_length_wrong(r: &mut Random, volume: &mut Vec<u8>, most: usize) {
    let right = volume.len();
    let any = r.below(2 * right);
    let wrong = r.pick(&[0, 1, right - 1, right + 1, right / 2, right + 128, right - 100, any]).min(most);
    if wrong == right {
        volume.pop();
    } else {
        volume.resize(wrong, EMPTY);
    }
}

/// An image in the making.
struct Making {
    geometry: Geometry,
    volume: Vec<u8>,
    /// Taken from the end.
    slots: Vec<usize>,
    /// Taken from the end.
    blocks: Vec<u16>,
    taken: BTreeSet<(u8, Name, u32)>,
    /// The top bit of byte 9 that most entries of the file in hand carry.
    read_only: u8,
}

impl Making {
    fn new(r: &mut Random, geometry: Geometry) -> Making {
        let volume = empty_volume(r, &geometry);
        let mut slots: Vec<usize> = (0..geometry.slots()).rev().collect();
        if r.percent(40) {
            r.shuffle(&mut slots);
        }
        let data = geometry.directory_blocks..geometry.blocks;
        let mut blocks: Vec<u16> = data.rev().map(|number| number as u16).collect();
        if r.percent(60) {
            r.shuffle(&mut blocks);
        }
        if geometry.is_wide() && r.percent(50) {
            // Those whose low byte is 0 are taken first.
            blocks.sort_by_key(|number| number % 256 == 0);
        }
        Making { geometry, volume, slots, blocks, taken: BTreeSet::new(), read_only: 0 }
    }

    /// Adds an entry with at most so many blocks, unless the file has the group
    /// already or no slot is empty.
    fn add(&mut self, r: &mut Random, user: u8, name: Name, group: u32, most: usize) {
        if self.slots.is_empty() || !self.taken.insert((user, name, group)) {
            return;
        }
        let mut entry = self.entry(r, user, name);
        let x = self.geometry.extents_an_entry();
        entry.set_extent(group * x + r.below(x as usize) as u32);
        let any = r.below(129) as u8;
        entry.bytes[15] = r.pick(&[0, 1, 2, 127, 128, any]);
        let dense = r.percent(60);
        let count = self.give_blocks(r, &mut entry, most, dense);
        if dense && count > 0 && r.percent(70) {
            // The records up to somewhere in the last block.
            let records = self.geometry.records_a_block();
            let last = count as u32 * records - 1 - r.below(records as usize) as u32;
            entry.set_extent(group * x + last / 128);
            entry.bytes[15] = (last % 128) as u8 + 1;
        }
        if let Some(slot) = self.slots.pop() {
            store_entry(&mut self.volume, slot, &entry);
        }
    }

    /// User, name and attributes.
    fn entry(&self, r: &mut Random, user: u8, name: Name) -> Entry {
        let mut user_and_name = [user; 12];
        user_and_name[1..].copy_from_slice(&name);
        let mut entry = Entry::new(&user_and_name);
        entry.bytes[9] |= self.read_only;
        if r.percent(2) {
            entry.bytes[9] ^= 0x80;
        }
        if r.percent(12) {
            entry.bytes[10] |= 0x80;
        }
        entry
    }

    /// Blocks for the first places or for any; how many were given.
    fn give_blocks(&mut self, r: &mut Random, entry: &mut Entry, most: usize, dense: bool) -> usize {
        let mut places: Vec<usize> = (0..self.geometry.places()).collect();
        if !dense {
            r.shuffle(&mut places);
        }
        let most = most.min(places.len()).min(self.blocks.len());
        let count = r.between(0, most).max(r.between(0, most));
        for &place in &places[..count] {
            entry.set_place(&self.geometry, place, self.blocks.pop().unwrap_or(0));
        }
        count
    }

    fn add_files(&mut self, r: &mut Random) {
        for _ in 0..r.between(1, 6) {
            let user = user(r);
            let name = name_of_pool(r);
            let most = r.pick(&[1, 2, 4, 16]);
            self.read_only = if r.percent(10) { 0x80 } else { 0 };
            for _ in 0..r.between(1, 3) {
                let group = group(r, &self.geometry);
                self.add(r, user, name, group, most);
            }
        }
        self.read_only = 0;
    }

    fn fill_directory(&mut self, r: &mut Random, but: usize) {
        let mut number = 0;
        while self.slots.len() > but {
            number += 1;
            let user = user(r);
            if r.percent(50) {
                self.add(r, user, numbered_name(number), 0, 1);
            } else {
                let name = name_of_pool(r);
                let group = group(r, &self.geometry);
                self.add(r, user, name, group, 1);
            }
        }
    }

    /// Gives the free blocks to places that have none, with new files where
    /// there are too few places, as far as there are slots.
    fn fill_disk(&mut self, r: &mut Random) {
        self.fill_places();
        while !self.blocks.is_empty() && !self.slots.is_empty() {
            let number = r.below(1_000_000);
            self.add(r, 0, numbered_name(number), 0, 16);
            self.fill_places();
        }
    }

    fn fill_places(&mut self) {
        for slot in 0..self.geometry.slots() {
            let mut entry = entry_at(&self.volume, slot);
            if entry.is_empty() {
                continue;
            }
            for place in 0..self.geometry.places() {
                if entry.map(&self.geometry)[place] == 0 {
                    entry.set_place(&self.geometry, place, self.blocks.pop().unwrap_or(0));
                }
            }
            store_entry(&mut self.volume, slot, &entry);
        }
    }
}

/// All slots empty, with all kinds of remains in them; noise in the blocks.
fn empty_volume(r: &mut Random, geometry: &Geometry) -> Vec<u8> {
    let mut volume = r.bytes(geometry.volume_bytes());
    for slot in 0..geometry.slots() {
        let bytes = &mut volume[slot * SLOT..(slot + 1) * SLOT];
        match r.below(4) {
            // Noise behind the mark of an empty slot.
            0 => {}
            // The remains of an erased entry.
            1 => {
                bytes[1..12].copy_from_slice(&name_of_pool(r));
                bytes[12..16].copy_from_slice(&[0, 0, 0, 9]);
            }
            _ => bytes.fill(EMPTY),
        }
        bytes[0] = EMPTY;
    }
    volume
}

/// Mostly one of the first groups, sometimes any, sometimes the last.
fn group(r: &mut Random, geometry: &Geometry) -> u32 {
    let x = geometry.extents_an_entry();
    let last = 511 / x;
    match r.below(20) {
        0..=13 => r.below(3) as u32,
        14..=15 => r.pick(&[31 / x, 32 / x]),
        16..=17 => last,
        _ => r.below(last as usize + 1) as u32,
    }
}
