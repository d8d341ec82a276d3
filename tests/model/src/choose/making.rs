//! A chain in the making: from a volume that log-in accepts, played on the model
//! as it is chosen.

use super::geometries::geometry;
use super::images::{contents, valid_image};
use super::random::Random;
use crate::doors::chain::{Chain, Step};
use crate::doors::drive_bytes::closed;
use crate::doors::script::Call;
use crate::doors::seam::{self, Memory};
use crate::paper::geometry::Geometry;

pub struct Making {
    pub r: Random,
    pub geometry: Geometry,
    pub memory: Memory,
    pub steps: Vec<Step>,
    volume: Vec<u8>,
    drive: Vec<u8>,
}

impl Making {
    /// A sound volume, and a closed drive for it.
    pub fn new(mut r: Random) -> Making {
        let geometry = geometry(&mut r);
        let contents = contents(&mut r);
        let volume = valid_image(&mut r, geometry, contents);
        let drive = closed(geometry.blocks);
        let memory = Memory { volume: volume.clone(), drive: drive.clone(), ..Memory::default() };
        Making { r, geometry, memory, steps: Vec::new(), volume, drive }
    }

    pub fn log_in(&mut self) {
        seam::log_in(self.geometry, &mut self.memory);
        self.steps.push(Step::LogIn(self.geometry));
    }

    pub fn call(&mut self, call: Call) {
        self.memory.control = call.control.clone();
        self.memory.buffer = call.buffer.clone();
        seam::call(call.function, call.parameter, &mut self.memory);
        self.steps.push(Step::Call(call));
    }

    /// The chain of the steps that were chosen.
    pub fn chain(self) -> Chain {
        Chain { volume: self.volume, drive: self.drive, steps: self.steps }
    }
}
