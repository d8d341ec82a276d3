//! A drive with a volume to try single calls on.

use crate::paper::calls::{self, Lent};
use crate::paper::control::{show_record, CONTROL_BYTES, CR, EX, S2};
use crate::paper::directory::{entry_at, Entry, Map, EMPTY};
use crate::paper::geometry::{Geometry, RECORD, SLOT};
use crate::paper::held::Way;
use crate::paper::inspection::log_in;
use crate::paper::state::{Drive, State};

pub struct Bench {
    pub geometry: Geometry,
    pub way: Way,
    pub volume: Vec<u8>,
    pub drive: Drive,
    /// Lent as control block, left as the last call left it.
    pub control: Vec<u8>,
    /// Lent as transfer buffer, left as the last call left it.
    pub buffer: Vec<u8>,
}

/// "SIGLA.TXT" as eleven bytes.
pub fn name(text: &str) -> [u8; 11] {
    let mut name = [0x20; 11];
    let (front, back) = text.split_once('.').unwrap_or((text, ""));
    name[..front.len()].copy_from_slice(front.as_bytes());
    name[8..8 + back.len()].copy_from_slice(back.as_bytes());
    name
}

/// A control block with a name, all else 0.
pub fn control_for(text: &str) -> Vec<u8> {
    let mut control = vec![0; CONTROL_BYTES];
    control[1..12].copy_from_slice(&name(text));
    control
}

impl Bench {
    /// An empty volume, its blocks filled with bytes that tell them apart,
    /// not logged in yet.
    pub fn closed(block_bytes: u32, blocks: u32, directory_blocks: u32, way: Way) -> Bench {
        let geometry = Geometry::new(block_bytes, blocks, directory_blocks);
        let mut volume = vec![0; geometry.volume_bytes()];
        for (i, byte) in volume.iter_mut().enumerate() {
            *byte = (i / RECORD * 7 + i * 3 + 1) as u8;
        }
        volume[..geometry.slots() * SLOT].fill(EMPTY);
        Bench { geometry, way, volume, drive: None, control: vec![0; CONTROL_BYTES], buffer: vec![0; RECORD] }
    }

    pub fn open(block_bytes: u32, blocks: u32, directory_blocks: u32, way: Way) -> Bench {
        let mut bench = Bench::closed(block_bytes, blocks, directory_blocks, way);
        assert_eq!(bench.log_in().0, 0);
        bench
    }

    /// Number and count or slot.
    pub fn log_in(&mut self) -> (u32, u32) {
        let (answer, value, drive) = log_in(self.geometry, &self.volume, self.way);
        self.drive = drive;
        (answer, value)
    }

    pub fn state(&mut self) -> &mut State {
        self.drive.as_mut().expect("the drive is open")
    }

    /// Number and value.
    pub fn answer(&mut self, function: u8, parameter: u8) -> (u32, u32) {
        let mut lent =
            Lent { volume: &mut self.volume, control: &mut self.control, buffer: &mut self.buffer };
        calls::call(&mut self.drive, function, parameter, &mut lent)
    }

    pub fn call_with(&mut self, function: u8, parameter: u8) -> u32 {
        self.answer(function, parameter).0
    }

    /// A call with the control block as it stands.
    pub fn call(&mut self, function: u8) -> u32 {
        self.call_with(function, 0)
    }

    /// A call with a new control block for the file.
    pub fn on(&mut self, function: u8, file: &str) -> u32 {
        self.control = control_for(file);
        self.call(function)
    }

    /// A random call on a record of the file.
    pub fn random(&mut self, function: u8, file: &str, n: u32) -> u32 {
        self.control = control_for(file);
        show_record(&mut self.control, n);
        self.call(function)
    }

    /// A random write of 128 bytes of one value.
    pub fn write(&mut self, file: &str, n: u32, value: u8) -> u32 {
        self.buffer = vec![value; RECORD];
        self.random(calls::RANDOM_WRITE, file, n)
    }

    /// A sequential call from a position.
    pub fn sequential(&mut self, function: u8, file: &str, s2: u8, ex: u8, cr: u8) -> u32 {
        self.control = control_for(file);
        self.control[S2] = s2;
        self.control[EX] = ex;
        self.control[CR] = cr;
        self.call(function)
    }

    pub fn rename(&mut self, old: &str, new: &str) -> u32 {
        self.control = control_for(old);
        self.control[17..28].copy_from_slice(&name(new));
        self.call(calls::RENAME)
    }

    pub fn entry(&self, slot: usize) -> Entry {
        entry_at(&self.volume, slot)
    }

    /// The block numbers of a slot's entry.
    pub fn map(&self, slot: usize) -> Map {
        self.entry(slot).map(&self.geometry)
    }

    pub fn set_byte(&mut self, slot: usize, byte: usize, value: u8) {
        self.volume[slot * SLOT + byte] = value;
    }
}
