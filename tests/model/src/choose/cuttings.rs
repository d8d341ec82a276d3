//! Chains that cut calls off: from volumes that log-in accepts, each call with
//! every number of stores, and log-in of what is left.

use super::aims::View;
use super::bad_scripts::number_not_served;
use super::drives::{drive_of_another_length, wild_drive};
use super::images::{make_length_wrong, LONGEST_LENT};
use super::making::Making;
use super::random::Random;
use super::runs::call_with_faults;
use crate::doors::chain::{Chain, Step};
use crate::doors::cut::asked;
use crate::doors::drive_bytes::{closed, decode};
use crate::doors::script::Call;
use crate::doors::seam::Memory;
use crate::paper::calls::*;
use crate::paper::floppy::logical;

/// Where the numbers of these chains begin among those of a seed.
const OWN: u64 = u64::MAX / 8;

/// Of a call with more stores than this, or on a volume of more bytes, only some
/// cuts are tried.
const MANY_STORES: usize = 40;
const LARGE: usize = 64 * 1024;

/// The calls that store something.
const CHANGING: [u8; 8] =
    [DELETE, SEQUENTIAL_WRITE, MAKE, RENAME, ATTRIBUTES, RANDOM_WRITE, ZERO_FILL_WRITE, WRITE_SEVERAL];

/// The chain of this seed and number.
pub fn cutting(seed: u64, number: u64) -> Chain {
    let mut making = Making::new(Random::new(seed, OWN + number));
    making.begin();
    for _ in 0..making.r.between(2, 4) {
        making.every_cut();
    }
    making.cut_wrongly();
    making.steps.push(Step::LogIn(making.geometry));
    making.chain()
}

/// So many stores at most: each number up to one more than there are, or some.
pub fn some_most(r: &mut Random, stores: usize) -> u32 {
    let any = r.below(stores + 2) as u32;
    r.pick(&[0, 1, 2, any, any, u32::MAX])
}

/// How many stores the call makes on what is lent, 0 where it is refused.
pub fn stores_made(call: &Call, memory: &Memory) -> usize {
    if !CALLS.contains(&call.function) {
        return 0;
    }
    let Some(state) = decode(&memory.drive) else { return 0 };
    let lent = Memory { control: call.control.clone(), buffer: call.buffer.clone(), ..memory.clone() };
    asked(Some(state), call.function, call.parameter, &lent).stores().1.len()
}

impl Making {
    /// A call of this function, now and then with something out of order.
    fn chosen(&mut self, function: u8) -> Call {
        let user = decode(&self.memory.drive).map_or(0, |state| state.user);
        let volume = logical(&self.geometry, &self.memory.volume);
        let view = View { geometry: self.geometry.straight(), volume: &volume, user, altered: None };
        call_with_faults(&mut self.r, &view, function, &[0, 0, 0, 0, 0, 0, 1])
    }

    /// Log-in, and a user that has files.
    fn begin(&mut self) {
        self.log_in();
        let volume = logical(&self.geometry, &self.memory.volume);
        let view = View { geometry: self.geometry.straight(), volume: &volume, user: 0, altered: None };
        let parameter = view.user_with_files(&mut self.r);
        self.call(Call { function: USER, parameter, control: Vec::new(), buffer: Vec::new() });
    }

    /// From here on each step cuts drive and volume as they stand now.
    fn cut(&mut self, most: u32, call: &Call, log_in: bool) {
        self.steps.push(Step::Cut(most, call.clone()));
        if log_in {
            self.steps.push(Step::LogIn(self.geometry));
        }
        self.steps.push(Step::Back);
    }

    /// A changing call with each number of stores, and then the call itself.
    fn every_cut(&mut self) {
        let function = self.r.pick(&CHANGING);
        let call = self.chosen(function);
        let stores = stores_made(&call, &self.memory);
        self.steps.push(Step::Note);
        if stores > MANY_STORES || self.memory.volume.len() > LARGE {
            let any = self.r.below(stores + 1) as u32;
            for most in [0, 1, any, stores as u32, u32::MAX] {
                self.cut(most, &call, true);
            }
        } else {
            for most in 0..=stores as u32 + 1 {
                self.cut(most, &call, true);
            }
        }
        self.call(call);
    }

    /// A call that stores nothing, one that is not served, a volume of another
    /// length, a drive that no log-in has left, and one of another length.
    fn cut_wrongly(&mut self) {
        self.steps.push(Step::Note);
        for function in [self.r.pick(&CALLS), self.r.pick(&LOG_INS), number_not_served(&mut self.r)] {
            let like = if CALLS.contains(&function) { function } else { self.r.pick(&CALLS) };
            let call = Call { function, ..self.chosen(like) };
            self.cut_somewhere(&call);
        }
        let mut volume = self.memory.volume.clone();
        make_length_wrong(&mut self.r, &mut volume, LONGEST_LENT);
        let wild = wild_drive(&mut self.r, &self.memory.drive, &self.geometry, &self.memory.volume);
        let mut other = self.memory.drive.clone();
        other.resize(drive_of_another_length(&mut self.r, self.geometry.blocks).len(), 0);
        let any = self.r.pick(&CALLS);
        for (step, function) in [
            (Step::Volume(volume), self.r.pick(&CHANGING)),
            (Step::Drive(closed(self.geometry.blocks)), any),
            (Step::Drive(wild), self.r.pick(&CHANGING)),
            (Step::Drive(other), any),
        ] {
            let call = self.chosen(function);
            self.steps.push(step);
            self.cut_somewhere(&call);
        }
    }

    fn cut_somewhere(&mut self, call: &Call) {
        let most = some_most(&mut self.r, 2);
        self.cut(most, call, false);
    }
}
