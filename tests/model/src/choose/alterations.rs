//! Single alterations of a volume, as something else might make them. Most are
//! aimed at one rule of inspection, or at one that calls rely on.

use super::aims::present_places;
use super::random::Random;
use crate::paper::directory::{entry_at, number_bytes, Entry, EMPTY};
use crate::paper::floppy::{logical, start, start_of, IMAGE_BYTES};
use crate::paper::geometry::{Geometry, MAP, RECORD, SLOT};
use crate::paper::names::ANY;

/// Where, and the bytes to lay there (at most 200).
pub type Alteration = (usize, Vec<u8>);

/// The slot that an alteration is about.
struct Target<'a> {
    geometry: &'a Geometry,
    volume: &'a [u8],
    /// Slots that lie within the volume.
    slots: usize,
    slot: usize,
    entry: Entry,
}

impl Target<'_> {
    /// Where a byte of the entry stands.
    fn at(&self, byte: usize) -> usize {
        self.slot * SLOT + byte
    }

    /// Where the number of a place stands.
    fn at_place(&self, place: usize) -> usize {
        self.at(16 + self.geometry.number_bytes() * place)
    }

    fn any_place(&self, r: &mut Random) -> usize {
        self.at_place(r.below(self.geometry.places()))
    }

    /// A number as it stands in entries.
    fn number(&self, number: u16) -> Vec<u8> {
        number_bytes(self.geometry, number)
    }
}

type Kind = fn(&mut Random, &Target) -> Alteration;

const KINDS: &[(usize, Kind)] = &[
    (1, any_byte),
    (1, strange_user),
    (1, other_user),
    (1, erased),
    (1, name_byte),
    (2, wildcard_in_name),
    (2, one_top_bit),
    (1, many_top_bits),
    (1, read_only),
    (1, ex),
    (1, s1),
    (1, s2),
    (3, rc),
    (1, first_extent_and_s1),
    (5, number_outside),
    (3, map_outside),
    (2, number_of_another),
    (2, number_twice),
    (1, no_number),
    (1, entry_again),
    (3, entry_again_nearby),
    (1, entry_with_wild_numbers),
    (1, wild_entry),
    (1, bytes_anywhere),
];

/// One alteration of what is lent. On an image it lies within one record.
pub fn alteration(r: &mut Random, geometry: &Geometry, lent: &[u8], user: Option<u8>) -> Alteration {
    let volume = logical(geometry, lent);
    let (offset, mut bytes) = alteration_of_volume(r, &geometry.straight(), &volume, user);
    if !geometry.is_floppy() || lent.len() != IMAGE_BYTES || offset / RECORD >= geometry.records() {
        return (offset, bytes);
    }
    bytes.truncate(RECORD - offset % RECORD);
    (start(offset / RECORD) + offset % RECORD, bytes)
}

/// The slot in which a byte of what is lent stands, if it is one of the directory's
/// or lies behind it.
pub fn slot_at(geometry: &Geometry, offset: usize) -> usize {
    let is_here = |q: &usize| (start_of(geometry, *q)..start_of(geometry, *q) + RECORD).contains(&offset);
    let records = geometry.slots() * SLOT / RECORD;
    let record = (0..records).find(is_here);
    record.map_or(geometry.slots(), |q| (q * RECORD + offset - start_of(geometry, q)) / SLOT)
}

/// One alteration of a volume; where a user is named, mostly of an entry that is
/// the user's. The geometry is within the rules; the volume may have any length.
fn alteration_of_volume(r: &mut Random, geometry: &Geometry, volume: &[u8], user: Option<u8>) -> Alteration {
    let slots = geometry.slots().min(volume.len() / SLOT);
    if slots == 0 {
        let length = r.between(0, 20);
        return (r.below(volume.len() + 10), r.bytes(length));
    }
    let of_user: Vec<usize> = (0..slots).filter(|slot| Some(volume[slot * SLOT]) == user).collect();
    let slot =
        if of_user.is_empty() || r.percent(40) { used_slot(r, volume, slots) } else { r.pick(&of_user) };
    let target = Target { geometry, volume, slots, slot, entry: entry_at(volume, slot) };
    r.weighted(KINDS)(r, &target)
}

/// Mostly a slot that is not empty.
fn used_slot(r: &mut Random, volume: &[u8], slots: usize) -> usize {
    let used: Vec<usize> = (0..slots).filter(|slot| volume[slot * SLOT] != EMPTY).collect();
    if used.is_empty() || r.percent(5) {
        r.below(slots)
    } else {
        r.pick(&used)
    }
}

fn any_byte(r: &mut Random, target: &Target) -> Alteration {
    (target.at(r.below(SLOT)), vec![r.byte()])
}

/// Neither a user nor the mark of an empty slot, or just a user.
fn strange_user(r: &mut Random, target: &Target) -> Alteration {
    (target.at(0), vec![r.pick(&[0x10, 0x1F, 0x20, 0x80, 0xE4, 0xE6, 0xFF, 0x0F])])
}

fn other_user(r: &mut Random, target: &Target) -> Alteration {
    (target.at(0), vec![r.below(16) as u8])
}

fn erased(_: &mut Random, target: &Target) -> Alteration {
    (target.at(0), vec![EMPTY])
}

fn name_byte(r: &mut Random, target: &Target) -> Alteration {
    let byte = 1 + r.below(11);
    let any = r.byte();
    (target.at(byte), vec![r.pick(&[ANY, 0x7F, 0x1F, target.entry.bytes[byte] | 0x80, 0x20, any])])
}

/// A byte that only a pattern should have.
fn wildcard_in_name(r: &mut Random, target: &Target) -> Alteration {
    (target.at(1 + r.below(11)), vec![r.pick(&[ANY, ANY, ANY | 0x80])])
}

fn one_top_bit(r: &mut Random, target: &Target) -> Alteration {
    let byte = r.pick(&[1, 2, 8, 9, 10, 11, 11]);
    (target.at(byte), vec![target.entry.bytes[byte] | 0x80])
}

fn many_top_bits(r: &mut Random, target: &Target) -> Alteration {
    let mut name = target.entry.name().to_vec();
    r.add_top_bits(&mut name);
    (target.at(1), name)
}

fn read_only(_: &mut Random, target: &Target) -> Alteration {
    (target.at(9), vec![target.entry.bytes[9] ^ 0x80])
}

fn ex(r: &mut Random, target: &Target) -> Alteration {
    (target.at(12), vec![r.pick(&[31, 32, 33, 63, 64, 255, 0, 1])])
}

fn s1(r: &mut Random, target: &Target) -> Alteration {
    (target.at(13), vec![r.byte()])
}

fn s2(r: &mut Random, target: &Target) -> Alteration {
    (target.at(14), vec![r.pick(&[0, 1, 15, 16, 255])])
}

fn rc(r: &mut Random, target: &Target) -> Alteration {
    (target.at(15), vec![r.pick(&[128, 129, 130, 200, 255])])
}

fn first_extent_and_s1(r: &mut Random, target: &Target) -> Alteration {
    let first = target.entry.bytes[12] / 4 * 4;
    (target.at(12), vec![first, 1 + r.byte() / 2])
}

/// Mostly in the place of a present record.
fn number_outside(r: &mut Random, target: &Target) -> Alteration {
    let places = present_places(target.geometry, &target.entry);
    let any = r.below(target.geometry.places());
    let place = if places.is_empty() || r.percent(20) { any } else { r.pick(&places) };
    (target.at_place(place), target.number(outside(r, target.geometry)))
}

/// A map of numbers that are all outside, all the same or not.
fn map_outside(r: &mut Random, target: &Target) -> Alteration {
    let mut map = target.number(outside(r, target.geometry)).repeat(target.geometry.places());
    if r.percent(50) {
        map.clear();
        while map.len() < MAP {
            map.extend(target.number(outside(r, target.geometry)));
        }
    }
    (target.at(16), map)
}

fn number_of_another(r: &mut Random, target: &Target) -> Alteration {
    let other = entry_at(target.volume, used_slot(r, target.volume, target.slots));
    (target.any_place(r), target.number(number_of(r, target.geometry, &other)))
}

fn number_twice(r: &mut Random, target: &Target) -> Alteration {
    let number = number_of(r, target.geometry, &target.entry);
    (target.at_place(r.below(target.geometry.places() - 1)), target.number(number).repeat(2))
}

fn no_number(r: &mut Random, target: &Target) -> Alteration {
    (target.any_place(r), target.number(0))
}

fn entry_again(r: &mut Random, target: &Target) -> Alteration {
    (r.below(target.slots) * SLOT, target.entry.bytes.to_vec())
}

/// The same file in another slot, with the same extent or one near it.
fn entry_again_nearby(r: &mut Random, target: &Target) -> Alteration {
    let mut other = target.entry;
    let extent = target.entry.extent().min(511) as usize;
    other.set_extent(r.between(extent.max(2) - 2, (extent + 3).min(511)) as u32);
    if r.percent(70) {
        other.bytes[16..].fill(0);
    }
    (r.below(target.slots) * SLOT, other.bytes.to_vec())
}

/// The same file with wild numbers, here or elsewhere.
fn entry_with_wild_numbers(r: &mut Random, target: &Target) -> Alteration {
    let mut bytes = target.entry.bytes.to_vec();
    r.fill(&mut bytes[12..]);
    let slot = if r.percent(50) { target.slot } else { r.below(target.slots) };
    (slot * SLOT, bytes)
}

fn wild_entry(r: &mut Random, target: &Target) -> Alteration {
    let mut bytes = r.bytes(SLOT);
    if r.percent(70) {
        bytes[0] = r.below(16) as u8;
    }
    (target.at(0), bytes)
}

fn bytes_anywhere(r: &mut Random, target: &Target) -> Alteration {
    let length = r.between(1, 200);
    (r.below(target.volume.len() + 1), r.bytes(length))
}

/// A number that the entry has, or else D.
fn number_of(r: &mut Random, geometry: &Geometry, entry: &Entry) -> u16 {
    let numbers: Vec<u16> = entry.map(geometry).iter().copied().filter(|&number| number != 0).collect();
    if numbers.is_empty() {
        geometry.directory_blocks as u16
    } else {
        r.pick(&numbers)
    }
}

/// A block number that no entry may have, where there is one.
fn outside(r: &mut Random, geometry: &Geometry) -> u16 {
    let below = geometry.directory_blocks as usize - 1;
    let largest = if geometry.is_wide() { 65535 } else { 255 };
    let beyond = largest + 1 - geometry.blocks as usize;
    if below == 0 && beyond == 0 {
        return 0;
    }
    if beyond == 0 || (below > 0 && r.percent(50)) {
        return r.between(1, below) as u16;
    }
    let any = largest - r.below(beyond);
    r.pick(&[geometry.blocks as usize, largest, any]) as u16
}
