//! Chains for the edition desk: a collation file is made by calls, its sigla are
//! replaced, and then contents, directory, drive and lengths are put out of order
//! one after another. And lists, with sigla in the one, the other, both or neither.

use super::alterations::alteration;
use super::drives::{drive_of_another_length, wild_drive};
use super::images::{make_length_wrong, LONGEST_LENT};
use super::making::Making;
use super::random::Random;
use crate::doors::chain::{Chain, Step};
use crate::doors::desk::{self, Replacement};
use crate::doors::script::{lay, Call};
use crate::paper::calls::*;
use crate::paper::control::{show_record, DR};
use crate::paper::directory::entry_at;
use crate::paper::floppy::{logical, start_of};
use crate::paper::geometry::RECORD;

/// Where the numbers of these chains begin among those of a seed.
const OWN: u64 = u64::MAX / 16;

/// Sigla and chapters are of few kinds, so that many match.
const SIGLA: [u16; 4] = [0x2041, 0x6242, 0x4262, 0];
const CHAPTERS: [u16; 6] = [0, 1, 2, 3, 300, 65535];

const COLLATION: &[u8; 11] = b"COLLATIOTXT";

/// One file of so many has a chapter of more records than an entry has, if the
/// disk has room for it.
const LONG_EVERY: u64 = 40;
const LONG: u16 = 150;

/// The chain of this seed and number.
pub fn column(seed: u64, number: u64) -> Chain {
    let mut making = Making::new(Random::new(seed, OWN + number));
    making.begin_file(number % LONG_EVERY == LONG_EVERY - 1);
    for _ in 0..making.r.between(2, 5) {
        making.replace();
    }
    for _ in 0..making.r.between(2, 5) {
        making.disturb();
        making.replace();
    }
    making.replace_wrongly();
    for _ in 0..4 {
        making.who();
    }
    making.chain()
}

impl Making {
    /// The control block for the collation file; what stands behind the name is
    /// not looked at.
    fn control(&mut self) -> Vec<u8> {
        let mut control = self.r.bytes(36);
        control[DR] = self.r.pick(&[0, 1]);
        control[1..12].copy_from_slice(COLLATION);
        control
    }

    fn write(&mut self, n: u32, record: Vec<u8>) {
        let mut control = self.control();
        show_record(&mut control, n);
        self.call(Call { function: RANDOM_WRITE, parameter: 0, control, buffer: record });
    }

    /// Places whose bodies follow from record 1, and how many records they list.
    /// The first chapter is a long one, or as short as the others.
    fn contents(&mut self, long: bool) -> (Vec<u8>, u32) {
        let mut numbers = CHAPTERS[1..].to_vec();
        self.r.shuffle(&mut numbers);
        let (mut record, mut next) = (Vec::new(), 1u32);
        for number in numbers.into_iter().take(self.r.between(0, 4)) {
            let count = if long && next == 1 { LONG } else { self.r.pick(&[1, 2, 3, 7, 20]) };
            for part in [number, next as u16, count, 0] {
                record.extend(part.to_le_bytes());
            }
            next += count as u32;
        }
        record.resize(RECORD, 0);
        (record, next - 1)
    }

    /// Log-in, and the file; now and then it lacks a record, record 0 or its group.
    fn begin_file(&mut self, long: bool) {
        self.log_in();
        let mut control = self.control();
        control[12] = 0;
        self.call(Call { function: MAKE, parameter: 0, control, buffer: Vec::new() });
        let (contents, listed) = self.contents(long);
        match self.r.below(12) {
            0 => return,
            1 => {
                let reading = self.reading();
                return self.write(1024, reading);
            }
            _ => self.write(0, contents),
        }
        let missing = if self.r.percent(15) { self.r.below(listed as usize + 1) as u32 } else { 0 };
        for n in (1..=listed).filter(|&n| n != missing) {
            let reading = self.reading();
            self.write(n, reading);
        }
    }

    fn reading(&mut self) -> Vec<u8> {
        let mut record = self.r.bytes(RECORD);
        let siglum = self.r.pick(&SIGLA);
        record[..2].copy_from_slice(&siglum.to_le_bytes());
        record
    }

    fn replacement(&mut self) -> Replacement {
        let any = self.r.byte() as u16;
        let (chapter, old, new) = (self.r.pick(&CHAPTERS), self.r.pick(&SIGLA), self.r.pick(&SIGLA));
        Replacement { chapter, old, new: if self.r.percent(10) { any } else { new } }
    }

    fn replace_with(&mut self, control: Vec<u8>) {
        let asked = self.replacement();
        self.memory.control = control.clone();
        desk::replace(asked, &mut self.memory);
        self.steps.push(Step::Replace(asked, control));
    }

    fn replace(&mut self) {
        let control = self.control();
        self.replace_with(control);
    }

    fn lay(&mut self, offset: usize, bytes: Vec<u8>) {
        lay(&mut self.memory.volume, offset, &bytes);
        self.steps.push(Step::Lay(offset, bytes));
    }

    /// Something else touches the contents or the directory, or a call protects
    /// the drive or the file.
    fn disturb(&mut self) {
        match self.r.below(8) {
            0 => self.call(Call { function: PROTECT, parameter: 0, control: Vec::new(), buffer: Vec::new() }),
            1 => {
                let mut control = self.control();
                control[9] |= 0x80;
                self.call(Call { function: ATTRIBUTES, parameter: 0, control, buffer: Vec::new() });
            }
            2 | 3 => {
                let (offset, bytes) = alteration(&mut self.r, &self.geometry, &self.memory.volume, Some(0));
                self.lay(offset, bytes);
            }
            4 => {
                let (contents, _) = self.contents(false);
                self.write(0, contents);
            }
            _ => self.alter_contents(),
        }
    }

    /// One byte of the contents, where the file stands in the first slot that has it.
    fn alter_contents(&mut self) {
        let volume = logical(&self.geometry, &self.memory.volume);
        let mut entries = (0..self.geometry.slots()).map(|slot| entry_at(&volume, slot));
        let Some(entry) = entries.find(|entry| entry.bytes[1..12] == COLLATION[..]) else { return };
        let block = entry.map(&self.geometry)[0];
        if !self.geometry.is_data_block(block) {
            return;
        }
        let record = block as usize * self.geometry.block_bytes as usize / RECORD;
        let place = self.r.pick(&[0, 1, 2, 3, 4, 5, 6, 7, 8, 10, 12, 14, 24, 120, 127]);
        let value = self.r.pick(&[0, 1, 2, 3, 255]);
        self.lay(start_of(&self.geometry, record) + place, vec![value]);
    }

    /// Other control blocks, a volume of another length, and drives that no log-in
    /// has left.
    fn replace_wrongly(&mut self) {
        let good = self.control();
        let mut other = good.clone();
        other[1..12].copy_from_slice(b"NOTHING TXT");
        self.replace_with(other);
        for (at, byte) in [(DR, 2), (1, b' '), (3, b'?')] {
            let mut wrong = good.clone();
            wrong[at] = byte;
            self.replace_with(wrong);
        }
        let length = self.r.pick(&[0, 35, 37]);
        let wrong = self.r.bytes(length);
        self.replace_with(wrong);
        let (drive, volume) = (self.memory.drive.clone(), self.memory.volume.clone());
        make_length_wrong(&mut self.r, &mut self.memory.volume, LONGEST_LENT);
        self.steps.push(Step::Volume(self.memory.volume.clone()));
        self.replace();
        self.memory.volume = volume.clone();
        self.steps.push(Step::Volume(volume.clone()));
        self.memory.drive = wild_drive(&mut self.r, &drive, &self.geometry, &volume);
        self.steps.push(Step::Drive(self.memory.drive.clone()));
        self.replace();
        self.memory.drive = drive_of_another_length(&mut self.r, self.geometry.blocks);
        self.steps.push(Step::Drive(self.memory.drive.clone()));
        self.replace();
    }

    fn list(&mut self) -> Vec<u8> {
        let lines = self.r.pick(&[0, 1, 2, 5, 40]);
        let mut list = self.r.bytes(32 * lines);
        for line in list.chunks_mut(32) {
            let siglum = self.r.pick(&SIGLA);
            if self.r.percent(60) {
                line[..2].copy_from_slice(&siglum.to_le_bytes());
            }
        }
        if self.r.percent(10) {
            list.truncate(list.len().saturating_sub(1));
        }
        list
    }

    fn who(&mut self) {
        let siglum = self.r.pick(&SIGLA);
        let (own, house) = (self.list(), self.list());
        self.steps.push(Step::Who(siglum, own, house));
    }
}
