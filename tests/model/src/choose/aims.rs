//! What a call is for: a file and a record, chosen by what the volume has.

use super::pool::{name_of_pool, numbered_name, user};
use super::random::Random;
use crate::paper::directory::{entry_at, Entry};
use crate::paper::geometry::{extent_of_record, Geometry, SLOT};
use crate::paper::names::{Name, ANY};

/// What is looked at where a call is chosen.
pub struct View<'a> {
    pub geometry: Geometry,
    /// Of any length.
    pub volume: &'a [u8],
    pub user: u8,
    /// A slot that was altered shortly before.
    pub altered: Option<usize>,
}

impl View<'_> {
    fn entries(&self) -> Vec<Entry> {
        let slots = self.geometry.slots().min(self.volume.len() / SLOT);
        (0..slots).map(|slot| entry_at(self.volume, slot)).filter(|entry| !entry.is_empty()).collect()
    }

    /// Whether no slot is empty.
    pub fn is_full(&self) -> bool {
        self.entries().len() == self.geometry.slots()
    }

    pub fn entries_of_user(&self) -> Vec<Entry> {
        let mut entries = self.entries();
        entries.retain(|entry| entry.user() == self.user);
        entries
    }

    fn entries_of_file(&self, name: &Name) -> Vec<Entry> {
        let mut entries = self.entries_of_user();
        entries.retain(|entry| entry.name() == *name);
        entries
    }

    /// The entry of the altered slot, if it is the user's.
    pub fn altered_entry(&self) -> Option<Entry> {
        let slot = self.altered?;
        if (slot + 1) * SLOT > self.volume.len() {
            return None;
        }
        let entry = entry_at(self.volume, slot);
        (entry.user() == self.user).then_some(entry)
    }

    pub fn user_with_files(&self, r: &mut Random) -> u8 {
        let entries = self.entries();
        if entries.is_empty() {
            user(r)
        } else {
            r.pick(&entries).user()
        }
    }

    /// A name that the user has no file of.
    pub fn new_name(&self, r: &mut Random) -> Name {
        for _ in 0..4 {
            let name = name_of_pool(r);
            if self.entries_of_file(&name).is_empty() {
                return name;
            }
        }
        numbered_name(r.below(1_000_000))
    }
}

/// A file and a record.
#[derive(Clone, Copy, PartialEq, Eq, Debug)]
pub struct Aim {
    pub name: Name,
    pub record: u32,
}

/// Mostly a file that the user has; for reads mostly a present record.
pub fn aim(r: &mut Random, view: &View, reads: bool) -> Aim {
    if let Some(entry) = view.altered_entry() {
        if r.percent(60) {
            return aim_at_altered(r, &view.geometry, &entry);
        }
    }
    let entries = view.entries_of_user();
    if entries.is_empty() || r.percent(5) {
        let record = r.pick(&[0, 1, 8, 127, 128, 1023, 65535]);
        return Aim { name: name_of_pool(r), record };
    }
    if reads && r.percent(85) {
        if let Some(aim) = aim_at_present(r, &view.geometry, &entries) {
            return aim;
        }
    }
    let entry = r.pick(&entries);
    Aim { name: entry.name(), record: record_near(r, &view.geometry, &entry) }
}

/// The file of this name, and a record of it or near it.
pub fn aim_at_file(r: &mut Random, view: &View, name: Name) -> Aim {
    let entries = view.entries_of_file(&name);
    if entries.is_empty() {
        return Aim { name, record: aim(r, view, false).record };
    }
    let entry = r.pick(&entries);
    Aim { name, record: record_near(r, &view.geometry, &entry) }
}

fn aim_at_altered(r: &mut Random, geometry: &Geometry, entry: &Entry) -> Aim {
    let mut name = entry.name();
    for byte in name.iter_mut() {
        // In the directory 3FH is a byte like any other.
        if *byte == ANY && r.percent(70) {
            *byte = r.pick(&[0x41, 0x20, 0x54]);
        }
    }
    Aim { name, record: record_near(r, geometry, entry) }
}

/// A record of the user's files that is present but for its block number, which
/// is no data block's, if there is one.
pub fn aim_outside(r: &mut Random, view: &View) -> Option<Aim> {
    let mut aims = Vec::new();
    for entry in view.entries_of_user() {
        for place in present_places(&view.geometry, &entry) {
            let record = first_record(&view.geometry, &entry, place);
            if !view.geometry.is_data_block(entry.map(&view.geometry)[place]) && record < 65536 {
                aims.push(Aim { name: entry.name(), record });
            }
        }
    }
    (!aims.is_empty()).then(|| r.pick(&aims))
}

/// The places of the entry whose first record is present.
pub fn present_places(geometry: &Geometry, entry: &Entry) -> Vec<usize> {
    let first = |place: &usize| first_record(geometry, entry, *place);
    (0..geometry.places()).filter(|place| is_present(geometry, entry, first(place))).collect()
}

fn first_record(geometry: &Geometry, entry: &Entry, place: usize) -> u32 {
    let group = geometry.group(entry.extent());
    group * 128 * geometry.extents_an_entry() + place as u32 * geometry.records_a_block()
}

/// A present record, if a few tries find one.
fn aim_at_present(r: &mut Random, geometry: &Geometry, entries: &[Entry]) -> Option<Aim> {
    let has_blocks = |entry: &&Entry| entry.map(geometry).iter().any(|&number| number != 0);
    let with_blocks: Vec<&Entry> = entries.iter().filter(has_blocks).collect();
    if with_blocks.is_empty() {
        return None;
    }
    for _ in 0..12 {
        let entry = r.pick(&with_blocks);
        let record = record_near(r, geometry, entry);
        if is_present(geometry, entry, record) {
            return Some(Aim { name: entry.name(), record });
        }
    }
    None
}

/// Whether the entry by itself makes the record present.
fn is_present(geometry: &Geometry, entry: &Entry, n: u32) -> bool {
    let extent = extent_of_record(n);
    geometry.group(extent) == geometry.group(entry.extent())
        && n % 128 < entry.count(extent)
        && entry.map(geometry)[geometry.place(n)] != 0
}

/// A record of the entry's group or near it.
fn record_near(r: &mut Random, geometry: &Geometry, entry: &Entry) -> u32 {
    let x = geometry.extents_an_entry() as usize;
    let records = geometry.records_a_block() as usize;
    let base = (geometry.group(entry.extent()) as usize) * 128 * x;
    let size = entry.size() as usize;
    let map = entry.map(geometry);
    let places: Vec<usize> = (0..map.len()).filter(|&place| map[place] != 0).collect();
    let n = match r.below(20) {
        0..=8 if !places.is_empty() => base + r.pick(&places) * records + r.below(records),
        0..=10 => base + r.below(3),
        11..=12 => size + r.below(2),
        13 => size.max(2) - r.between(1, 2),
        14 => base + 128 * r.between(1, x) - r.below(2),
        15 => base + 128 * x + r.below(3),
        16 => base + r.below(128 * x),
        17 => base + r.pick(&[0, 1, 2]) * 128 * x,
        18 => r.pick(&[0, 127, 128, 4095, 4096, 65535]),
        _ => r.below(65536),
    };
    n.min(65535) as u32
}

/// The record itself, or one shortly before the border of its extent, of its
/// group, or of all records.
pub fn near_border(r: &mut Random, geometry: &Geometry, n: u32) -> u32 {
    let before = r.between(1, 4) as u32;
    let group = 128 * geometry.extents_an_entry();
    match r.below(10) {
        0..=3 => n,
        4..=6 => (n / 128 + 1) * 128 - before,
        7..=8 => (n / group + 1) * group - before,
        _ => 65536 - before,
    }
}
