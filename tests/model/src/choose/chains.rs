//! Random chains for the seam alone, with drives that no run of calls has
//! left, volumes of another length, log-in through `churawel_call`, and numbers
//! that are not served.

use super::aims::View;
use super::alterations::{alteration, slot_at};
use super::bad_scripts::number_not_served;
use super::cuttings::{some_most, stores_made};
use super::drives::{drive_of_another_length, wild_drive};
use super::geometries::{geometry, wild_geometry};
use super::images::{contents, make_length_wrong, valid_image, Contents, LONGEST_LENT};
use super::random::Random;
use super::runs::Chooser;
use crate::check::pairs::Door;
use crate::doors::chain::{Chain, Step};
use crate::doors::drive_bytes::{closed, decode, drive_bytes};
use crate::doors::script::{lay, Call};
use crate::doors::seam::{self, Memory};
use crate::paper::calls::LOG_INS;
use crate::paper::directory::EMPTY;
use crate::paper::floppy::{logical, start_of};
use crate::paper::geometry::{Geometry, RECORD, SLOT};
use crate::paper::inspection::lowest_bad_slot;

/// Volumes above this keep their length throughout a chain.
const LARGE: usize = 64 * 1024;

/// The random chain of this seed and number.
pub fn chain(seed: u64, number: u64) -> Chain {
    let mut making = Making::new(Random::new(seed, 2 * number + 1), seed, number);
    let Memory { volume, drive, .. } = making.memory.clone();
    if making.r.percent(15) {
        making.alter();
    }
    let length = making.r.between(10, 60);
    while making.calls < length {
        if making.wants_log_in() {
            making.log_in();
        } else {
            making.some_calls();
        }
    }
    Chain { volume, drive, steps: making.steps }
}

/// Where the numbers of the choices of cuts begin among those of a seed.
const CUTS: u64 = u64::MAX / 16;

/// So many of a hundred calls are cut first.
const CUT_FIRST: usize = 20;

/// The number of the long run among the chains of a seed.
const LONG: u64 = u64::MAX / 4;

/// One long run of calls, as a collation makes it: on a volume of 64 slots and
/// 58 data blocks, where nothing but the calls touches drive and volume.
pub fn long_chain(seed: u64, calls: usize) -> Chain {
    let mut r = Random::new(seed, LONG);
    let geometry = Geometry::new(1024, 60, 2);
    let volume = valid_image(&mut r, geometry, Contents::SomeFiles);
    let mut making = Making::new(r, seed, LONG);
    making.geometry = geometry;
    making.memory = Memory { volume, drive: closed(geometry.blocks), ..Memory::default() };
    making.steady = true;
    let Memory { volume, drive, .. } = making.memory.clone();
    making.log_in_with(geometry);
    while making.calls < calls {
        making.some_calls();
    }
    Chain { volume, drive, steps: making.steps }
}

/// A chain in the making, played on the model as it is chosen.
struct Making {
    r: Random,
    geometry: Geometry,
    steps: Vec<Step>,
    /// Drive and volume as the steps so far leave them.
    memory: Memory,
    /// Log-ins and calls among the steps.
    calls: usize,
    chooser: Chooser,
    /// Whether the drive's bytes are changed between calls.
    wild: bool,
    /// Whether the volume is altered between calls.
    altered: bool,
    /// Whether nothing but calls is in it.
    steady: bool,
    /// The slot of the last alteration, for some calls after it.
    altered_slot: Option<usize>,
    /// For the cuts, so that the calls do not depend on them.
    cuts: Random,
}

impl Making {
    fn new(mut r: Random, seed: u64, number: u64) -> Making {
        let geometry = geometry(&mut r);
        let contents = contents(&mut r);
        let volume = valid_image(&mut r, geometry, contents);
        let drive = closed(geometry.blocks);
        let drive = if r.percent(20) { r.bytes(drive.len()) } else { drive };
        Making {
            geometry,
            steps: Vec::new(),
            memory: Memory { volume, drive, ..Memory::default() },
            calls: 0,
            chooser: Chooser::new(Door::Seam, number),
            wild: r.percent(60),
            altered: r.percent(40),
            steady: false,
            altered_slot: None,
            cuts: Random::new(seed, CUTS + number),
            r,
        }
    }

    fn set_volume(&mut self, volume: Vec<u8>) {
        self.steps.push(Step::Volume(volume.clone()));
        self.memory.volume = volume;
    }

    fn set_drive(&mut self, drive: Vec<u8>) {
        self.steps.push(Step::Drive(drive.clone()));
        self.memory.drive = drive;
    }

    fn lay(&mut self, offset: usize, bytes: Vec<u8>) {
        lay(&mut self.memory.volume, offset, &bytes);
        self.steps.push(Step::Lay(offset, bytes));
    }

    /// The geometry by which the next call is chosen: the drive's if it is open.
    fn seen_geometry(&self) -> Geometry {
        decode(&self.memory.drive).map_or(self.geometry, |state| state.geometry)
    }

    fn alter(&mut self) {
        let geometry = self.seen_geometry();
        let user = decode(&self.memory.drive).map(|state| state.user);
        let (offset, bytes) = alteration(&mut self.r, &geometry, &self.memory.volume, user);
        self.lay(offset, bytes);
        self.altered_slot = Some(slot_at(&geometry, offset));
    }

    fn wants_log_in(&mut self) -> bool {
        let cases = match decode(&self.memory.drive) {
            _ if self.calls == 0 => 85,
            None => 45,
            Some(state) if state.protected => 10,
            Some(_) if self.altered_slot.is_some() => 6,
            Some(_) => 2,
        };
        self.r.percent(cases)
    }

    /// `churawel_log_in`, mostly after what makes it succeed.
    fn log_in(&mut self) {
        let wild = self.r.percent(6);
        let given = if wild { wild_geometry(&mut self.r, &self.geometry) } else { self.geometry };
        if self.r.percent(3) {
            let drive = drive_of_another_length(&mut self.r, given.blocks);
            self.set_drive(drive);
        } else if self.memory.drive.len() != drive_bytes(given.blocks) && self.r.percent(80) {
            self.set_drive(closed(given.blocks));
        }
        if self.r.percent(60) {
            if let Some(slot) = lowest_bad_slot(&self.geometry, &self.memory.volume) {
                self.lay(start_of(&self.geometry, slot * SLOT / RECORD) + slot * SLOT % RECORD, vec![EMPTY]);
            }
        }
        self.log_in_with(given);
    }

    fn log_in_with(&mut self, geometry: Geometry) {
        seam::log_in(geometry, &mut self.memory);
        self.steps.push(Step::LogIn(geometry));
        self.calls += 1;
    }

    /// One call or a few, with drive and volume changed before them now and
    /// then, and mostly put back after them.
    fn some_calls(&mut self) {
        if self.steady {
            let call = self.next_call(false);
            return self.call(call);
        }
        if self.altered && self.r.percent(12) {
            self.alter();
        } else if self.r.percent(12) {
            self.altered_slot = None;
        }
        let drive_back = self.change_drive();
        let volume_back = self.change_length();
        for _ in 0..self.r.pick(&[1, 1, 1, 3]) {
            let call = self.next_call(volume_back.is_some());
            self.call(call);
        }
        if let Some((volume, drive)) = volume_back {
            self.set_volume(volume);
            self.set_drive(drive);
        }
        if let Some(drive) = drive_back {
            self.set_drive(drive);
        }
    }

    /// The drive to be put back, if it was changed and is to be.
    fn change_drive(&mut self) -> Option<Vec<u8>> {
        if !self.wild || !self.r.percent(15) {
            return None;
        }
        let before = self.memory.drive.clone();
        let wild = wild_drive(&mut self.r, &before, &self.geometry, &self.memory.volume);
        let closed = decode(&wild).is_none();
        self.set_drive(wild);
        self.r.percent(if closed { 85 } else { 30 }).then_some(before)
    }

    /// The volume and the drive to be put back, if the length was changed.
    fn change_length(&mut self) -> Option<(Vec<u8>, Vec<u8>)> {
        if self.memory.volume.len() > LARGE || !self.r.percent(5) {
            return None;
        }
        let before = (self.memory.volume.clone(), self.memory.drive.clone());
        let mut volume = before.0.clone();
        make_length_wrong(&mut self.r, &mut volume, LONGEST_LENT);
        self.set_volume(volume);
        if self.r.percent(20) {
            self.log_in_with(self.geometry);
        }
        Some(before)
    }

    /// Mostly one of the calls that replay has too; now and then log-in or a
    /// number that is not served, more often where they are refused.
    fn next_call(&mut self, wrong_length: bool) -> Call {
        let state = decode(&self.memory.drive);
        let cases = if state.is_none() || wrong_length { 12 } else { 2 };
        let mut instead = None;
        if self.r.percent(cases) {
            instead = Some(self.r.pick(&LOG_INS));
        } else if self.r.percent(cases) {
            instead = Some(number_not_served(&mut self.r));
        }
        let geometry = self.seen_geometry();
        let closed = state.is_none();
        let user = state.map_or(0, |state| state.user);
        let memory = &self.memory;
        let volume = logical(&geometry, &memory.volume);
        let view = View { geometry: geometry.straight(), volume: &volume, user, altered: self.altered_slot };
        let call = if closed || wrong_length {
            self.chooser.any(&mut self.r, &view)
        } else {
            self.chooser.next(&mut self.r, &view, &|call| lent(call, &mut memory.clone()) % 65536)
        };
        Call { function: instead.unwrap_or(call.function), ..call }
    }

    /// The call with at most so many stores, of which nothing is left.
    fn cut(&mut self, call: &Call) {
        let stores = stores_made(call, &self.memory);
        let most = some_most(&mut self.cuts, stores);
        self.steps.extend([Step::Note, Step::Cut(most, call.clone()), Step::Back]);
    }

    fn call(&mut self, call: Call) {
        if !self.steady && self.cuts.percent(CUT_FIRST) {
            self.cut(&call);
        }
        let answer = lent(&call, &mut self.memory);
        self.chooser.saw(call.function, answer % 65536, &self.memory.control);
        self.steps.push(Step::Call(call));
        self.calls += 1;
    }
}

/// The call is lent its control block and buffer, and done: its answer.
fn lent(call: &Call, memory: &mut Memory) -> u32 {
    memory.control = call.control.clone();
    memory.buffer = call.buffer.clone();
    seam::call(call.function, call.parameter, memory)
}
