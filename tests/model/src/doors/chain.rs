//! A chain: a run of calls at the seam, with what is done to drive and volume
//! between them.
//!
//! As a file it is the eight bytes of `HEAD`, the volume, the drive and then the
//! steps, each a letter and what `Step` says. Numbers have their low byte first;
//! a *run* is a length of 32 bits and so many bytes; volume and drive are runs.

use super::desk::Replacement;
use super::drive_bytes::closed;
use super::reader::Reader;
use super::script::{Call, Script, TOUCH};
use crate::paper::calls::LOG_INS;
use crate::paper::geometry::Geometry;

pub const HEAD: &[u8; 8] = b"CHURSEAM";

#[derive(Clone, PartialEq, Eq, Debug)]
pub struct Chain {
    pub volume: Vec<u8>,
    pub drive: Vec<u8>,
    pub steps: Vec<Step>,
}

#[derive(Clone, PartialEq, Eq, Debug)]
pub enum Step {
    /// `V`, run: from here on this is the volume.
    Volume(Vec<u8>),
    /// `D`, run: from here on these are the drive's bytes.
    Drive(Vec<u8>),
    /// `A`, 32 bits of offset, run: something else lays bytes into the volume.
    Lay(usize, Vec<u8>),
    /// `L`, B, T, D and placing of 32 bits each: `churawel_log_in`.
    LogIn(Geometry),
    /// `F`, the same four, run of what is lent: `churawel_fault`.
    Fault(Geometry, Vec<u8>),
    /// `N`, 32 bits, run of what is lent: `churawel_file`.
    File(u32, Vec<u8>),
    /// `C`, function, parameter, run of the control block, run of the buffer:
    /// `churawel_call`.
    Call(Call),
    /// `K`, 32 bits, then as for `C`: `churawel_cut` with so many stores at most.
    Cut(u32, Call),
    /// `R`, chapter, old and new siglum of 32 bits each, run of the control block:
    /// `churawel_replace_siglum`.
    Replace(Replacement, Vec<u8>),
    /// `W`, 32 bits, run of the own list, run of the house list:
    /// `churawel_manuscript`, which looks at neither drive nor volume.
    Who(u16, Vec<u8>, Vec<u8>),
    /// `S`: drive and volume are noted as they stand.
    Note,
    /// `B`: drive and volume are again as they were noted.
    Back,
}

impl Chain {
    /// The calls of a script; each is the step of the same number.
    pub fn of_script(script: &Script) -> Chain {
        let step = |call: &Call| match call.function {
            TOUCH => {
                let (offset, bytes) = call.touched().unwrap_or((0, &[]));
                Step::Lay(offset, bytes.to_vec())
            }
            function if LOG_INS.contains(&function) => Step::LogIn(script.geometry),
            _ => Step::Call(call.clone()),
        };
        let steps = script.calls.iter().map(step).collect();
        Chain { volume: script.volume.clone(), drive: closed(script.geometry.blocks), steps }
    }

    pub fn encode(&self) -> Vec<u8> {
        let mut bytes = HEAD.to_vec();
        put_run(&self.volume, &mut bytes);
        put_run(&self.drive, &mut bytes);
        for step in &self.steps {
            encode_step(step, &mut bytes);
        }
        bytes
    }

    /// `None` where the file is cut off or is no chain.
    pub fn decode(bytes: &[u8]) -> Option<Chain> {
        let mut reader = Reader { rest: bytes };
        if reader.take(HEAD.len())? != HEAD {
            return None;
        }
        let mut chain = Chain { volume: reader.run(4)?, drive: reader.run(4)?, steps: Vec::new() };
        while !reader.rest.is_empty() {
            chain.steps.push(decode_step(&mut reader)?);
        }
        Some(chain)
    }
}

fn put_number(number: u32, bytes: &mut Vec<u8>) {
    bytes.extend(number.to_le_bytes());
}

fn put_geometry(geometry: &Geometry, bytes: &mut Vec<u8>) {
    for number in [geometry.block_bytes, geometry.blocks, geometry.directory_blocks, geometry.placing] {
        put_number(number, bytes);
    }
}

fn put_run(run: &[u8], bytes: &mut Vec<u8>) {
    put_number(run.len() as u32, bytes);
    bytes.extend(run);
}

fn put_call(call: &Call, bytes: &mut Vec<u8>) {
    bytes.extend([call.function, call.parameter]);
    put_run(&call.control, bytes);
    put_run(&call.buffer, bytes);
}

fn encode_step(step: &Step, bytes: &mut Vec<u8>) {
    match step {
        Step::Volume(volume) => {
            bytes.push(b'V');
            put_run(volume, bytes);
        }
        Step::Drive(drive) => {
            bytes.push(b'D');
            put_run(drive, bytes);
        }
        Step::Lay(offset, laid) => {
            bytes.push(b'A');
            put_number(*offset as u32, bytes);
            put_run(laid, bytes);
        }
        Step::LogIn(geometry) => {
            bytes.push(b'L');
            put_geometry(geometry, bytes);
        }
        Step::Fault(geometry, lent) => {
            bytes.push(b'F');
            put_geometry(geometry, bytes);
            put_run(lent, bytes);
        }
        Step::File(from, lent) => {
            bytes.push(b'N');
            put_number(*from, bytes);
            put_run(lent, bytes);
        }
        Step::Call(call) => {
            bytes.push(b'C');
            put_call(call, bytes);
        }
        Step::Cut(most, call) => {
            bytes.push(b'K');
            put_number(*most, bytes);
            put_call(call, bytes);
        }
        Step::Replace(Replacement { chapter, old, new }, control) => {
            bytes.push(b'R');
            for number in [chapter, old, new] {
                put_number(*number as u32, bytes);
            }
            put_run(control, bytes);
        }
        Step::Who(siglum, own, house) => {
            bytes.push(b'W');
            put_number(*siglum as u32, bytes);
            put_run(own, bytes);
            put_run(house, bytes);
        }
        Step::Note => bytes.push(b'S'),
        Step::Back => bytes.push(b'B'),
    }
}

fn take_geometry(reader: &mut Reader) -> Option<Geometry> {
    let straight = Geometry::new(reader.number(4)?, reader.number(4)?, reader.number(4)?);
    Some(Geometry { placing: reader.number(4)?, ..straight })
}

fn take_call(reader: &mut Reader) -> Option<Call> {
    let (function, parameter) = (reader.byte()?, reader.byte()?);
    Some(Call { function, parameter, control: reader.run(4)?, buffer: reader.run(4)? })
}

/// 16 bits in 32.
fn take_short(reader: &mut Reader) -> Option<u16> {
    u16::try_from(reader.number(4)?).ok()
}

fn decode_step(reader: &mut Reader) -> Option<Step> {
    let step = match reader.byte()? {
        b'V' => Step::Volume(reader.run(4)?),
        b'D' => Step::Drive(reader.run(4)?),
        b'A' => Step::Lay(reader.number(4)? as usize, reader.run(4)?),
        b'L' => Step::LogIn(take_geometry(reader)?),
        b'F' => Step::Fault(take_geometry(reader)?, reader.run(4)?),
        b'N' => Step::File(reader.number(4)?, reader.run(4)?),
        b'C' => Step::Call(take_call(reader)?),
        b'K' => Step::Cut(reader.number(4)?, take_call(reader)?),
        b'R' => {
            let (chapter, old, new) = (take_short(reader)?, take_short(reader)?, take_short(reader)?);
            Step::Replace(Replacement { chapter, old, new }, reader.run(4)?)
        }
        b'W' => Step::Who(take_short(reader)?, reader.run(4)?, reader.run(4)?),
        b'S' => Step::Note,
        b'B' => Step::Back,
        _ => return None,
    };
    Some(step)
}
