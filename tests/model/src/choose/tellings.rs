//! Chains that ask why a volume is refused and which files it has: sound
//! volumes, and the same with one alteration after another.

use super::alterations::alteration;
use super::drives::wild_drive;
use super::geometries::wild_geometry;
use super::images::{make_length_wrong, LONGEST_LENT};
use super::making::Making;
use super::random::Random;
use crate::doors::chain::{Chain, Step};
use crate::doors::script::lay;
use crate::doors::telling::{self, FAULT_BYTES, LINE_BYTES};
use crate::paper::geometry::Geometry;

/// Where the numbers of these chains begin among those of a seed.
const OWN: u64 = u64::MAX / 2;

/// So many files of one volume are asked for at most.
const MOST_FILES: usize = 6;

/// The chain of this seed and number.
pub fn telling(seed: u64, number: u64) -> Chain {
    let mut making = Making::new(Random::new(seed, OWN + number));
    making.log_in();
    making.ask();
    for _ in 0..making.r.between(1, 6) {
        making.alter();
        making.ask();
    }
    making.ask_wrongly();
    making.chain()
}

impl Making {
    fn alter(&mut self) {
        let (offset, bytes) = alteration(&mut self.r, &self.geometry, &self.memory.volume, None);
        lay(&mut self.memory.volume, offset, &bytes);
        self.steps.push(Step::Lay(offset, bytes));
    }

    fn fault(&mut self, geometry: Geometry, length: usize) {
        let bytes = self.r.bytes(length);
        self.steps.push(Step::Fault(geometry, bytes));
    }

    /// The model's answer.
    fn file(&mut self, from: u32, length: usize) -> u32 {
        let bytes = self.r.bytes(length);
        self.memory.buffer = bytes.clone();
        self.steps.push(Step::File(from, bytes));
        telling::file(from, &mut self.memory)
    }

    /// Why the volume is refused, and some of its files, each from behind the last.
    fn ask(&mut self) {
        self.fault(self.geometry, FAULT_BYTES);
        let mut from = self.r.pick(&[0, 0, 1, 7]);
        for _ in 0..MOST_FILES {
            let answer = self.file(from, LINE_BYTES);
            if answer % 65536 != 0 {
                break;
            }
            from = answer / 65536 + 1;
        }
    }

    /// With a geometry outside the rules, other lengths, slots that are none, and
    /// drives that no log-in has left.
    fn ask_wrongly(&mut self) {
        let wild = wild_geometry(&mut self.r, &self.geometry);
        self.fault(wild, FAULT_BYTES);
        let length = self.r.pick(&[0, 1, 24, 31, 33, 64]);
        self.fault(self.geometry, length);
        let slots = self.geometry.slots() as u32;
        let from = self.r.pick(&[slots - 1, slots, slots + 1, 65536, u32::MAX]);
        self.file(from, LINE_BYTES);
        let length = self.r.pick(&[0, 1, 23, 25, 32]);
        self.file(0, length);
        make_length_wrong(&mut self.r, &mut self.memory.volume, LONGEST_LENT);
        self.steps.push(Step::Volume(self.memory.volume.clone()));
        self.fault(self.geometry, FAULT_BYTES);
        self.file(0, LINE_BYTES);
        let drive = wild_drive(&mut self.r, &self.memory.drive, &self.geometry, &self.memory.volume);
        self.memory.drive = drive.clone();
        self.steps.push(Step::Drive(drive));
        self.file(0, LINE_BYTES);
    }
}
