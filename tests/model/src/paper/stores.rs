//! If the emulator is closed halfway ("02", xii): "Each changing call shall store
//! whole 128-byte records: data records first, then directory records in rising
//! order." Which records a call stores is worked out here from what it sets; their
//! bytes are those that stand there once it is done.

use std::collections::BTreeSet;

use super::calls::*;
use super::control;
use super::directory::{entry_at, lowest_empty_slot, slot_of_group, slots_of_file};
use super::floppy::{logical, start_of, IMAGE_BYTES};
use super::geometry::{extent_of_record, Geometry, FLOPPY, RECORD, SLOT};
use super::names::matches;
use super::state::{Drive, State};

/// One store: the logical record, counted from the volume's first one, and its 128
/// bytes.
#[derive(Clone, PartialEq, Eq, Debug)]
pub struct Store {
    pub record: usize,
    pub bytes: Vec<u8>,
}

/// A cut is what is left when so many stores are laid down and no more.
pub fn lay_down(geometry: &Geometry, volume: &mut [u8], stores: &[Store]) {
    for store in stores {
        volume[start_of(geometry, store.record)..][..RECORD].copy_from_slice(&store.bytes);
    }
}

/// A call other than log-in and what it is lent, its own copies of everything.
#[derive(Clone)]
pub struct Asked {
    pub drive: Drive,
    pub function: u8,
    pub parameter: u8,
    pub volume: Vec<u8>,
    pub control: Vec<u8>,
    pub buffer: Vec<u8>,
}

impl Asked {
    /// The answer's number and value; what is lent is left as the call leaves it.
    pub fn done(&mut self) -> (u32, u32) {
        let mut lent =
            Lent { volume: &mut self.volume, control: &mut self.control, buffer: &mut self.buffer };
        call(&mut self.drive, self.function, self.parameter, &mut lent)
    }

    /// The number of the call's refusal, 0 where it is not refused, and what it
    /// stores, in order.
    pub fn stores(&self) -> (u32, Vec<Store>) {
        if self.drive.as_ref().is_some_and(|state| state.geometry.is_floppy()) {
            return self.unskewed().stores();
        }
        let mut after = self.clone();
        let (number, value) = after.done();
        if !succeeded(self.function, number, value) {
            return (number, Vec::new());
        }
        if self.function == WRITE_SEVERAL {
            return (0, self.stores_of_writes(value as usize));
        }
        let bytes = |record: usize| after.volume[record * RECORD..][..RECORD].to_vec();
        let stores =
            self.records_set(&after).into_iter().map(|record| Store { record, bytes: bytes(record) });
        (0, stores.collect())
    }

    /// The same call on the unskewed volume of an image; of another length there is
    /// none.
    fn unskewed(&self) -> Asked {
        let mut asked = self.clone();
        let is_image = self.volume.len() == IMAGE_BYTES;
        asked.volume = if is_image { logical(&FLOPPY, &self.volume).into_owned() } else { Vec::new() };
        asked.drive = self.drive.clone().map(|state| State { geometry: state.geometry.straight(), ..state });
        asked
    }

    /// "A call of (ii) stores as its single calls would": so many of them.
    fn stores_of_writes(&self, count: usize) -> Vec<Store> {
        let mut stores = Vec::new();
        let mut one = Asked { function: SEQUENTIAL_WRITE, ..self.clone() };
        for piece in self.buffer.chunks(RECORD).take(count) {
            one.buffer = piece.to_vec();
            stores.extend(one.stores().1);
            one.done();
        }
        stores
    }

    /// The records that a call which is not refused stores, in order.
    fn records_set(&self, after: &Asked) -> Vec<usize> {
        let Some(state) = &self.drive else { return Vec::new() };
        let (geometry, user) = (&state.geometry, state.user);
        let name = || control::name(&self.control);
        match self.function {
            DELETE => {
                let erased = |slot: &usize| {
                    let entry = entry_at(&self.volume, *slot);
                    entry.user() == user && matches(name(), entry.name_bytes())
                };
                directory_records((0..geometry.slots()).filter(erased))
            }
            RENAME | ATTRIBUTES => directory_records(slots_of_file(geometry, &self.volume, user, name())),
            MAKE => directory_records(lowest_empty_slot(geometry, &self.volume)),
            SEQUENTIAL_WRITE | RANDOM_WRITE | ZERO_FILL_WRITE => self.records_written(after, geometry, user),
            _ => Vec::new(),
        }
    }

    /// "Data records first": the record written, or, where 40 fills a block given
    /// for the first time, each record of the block; then that of the entry.
    fn records_written(&self, after: &Asked, geometry: &Geometry, user: u8) -> Vec<usize> {
        let n = self.record();
        let group = geometry.group(extent_of_record(n));
        let slot_in = |volume: &[u8]| {
            let file = slots_of_file(geometry, volume, user, control::name(&self.control));
            slot_of_group(geometry, volume, &file, group)
        };
        let number_at = |volume: &[u8], slot: usize| entry_at(volume, slot).map(geometry)[geometry.place(n)];
        let number_in = |volume: &[u8]| slot_in(volume).map_or(0, |slot| number_at(volume, slot));
        let block = number_in(&after.volume);
        let is_given = number_in(&self.volume) == 0;
        let mut records = if self.function == ZERO_FILL_WRITE && is_given {
            let first = geometry.record_begins(block, 0) / RECORD;
            (first..first + geometry.records_a_block() as usize).collect()
        } else {
            vec![geometry.record_begins(block, n) / RECORD]
        };
        records.extend(directory_records(slot_in(&after.volume)));
        records
    }

    /// The record that a write is for.
    pub fn record(&self) -> u32 {
        if [SEQUENTIAL_WRITE, WRITE_SEVERAL].contains(&self.function) {
            control::sequential_position(&self.control)
        } else {
            control::random_record(&self.control)
        }
    }
}

/// "Then directory records in rising order": each that holds one of these slots,
/// once.
fn directory_records(slots: impl IntoIterator<Item = usize>) -> Vec<usize> {
    let records: BTreeSet<usize> = slots.into_iter().map(|slot| slot * SLOT / RECORD).collect();
    records.into_iter().collect()
}
