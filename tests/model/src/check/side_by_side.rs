//! A chain played on the model and on something behind the seam: after every
//! call the answer and every lent byte are compared.

use super::cuts;
use super::differences::{bytes_differ, numbers_differ, Difference};
use super::pairs::Row;
use super::table::Tally;
use crate::doors::chain::{Chain, Step};
use crate::doors::cut;
use crate::doors::desk;
use crate::doors::replay::hex;
use crate::doors::script::lay;
use crate::doors::seam::{self, Memory, Seam};
use crate::doors::telling;
use crate::paper::geometry::Geometry;

/// The first difference, if there is one. The model's answers are counted.
pub fn first_difference(chain: &Chain, under_test: &dyn Seam, tally: &mut Tally) -> Option<Difference> {
    let (volume, drive) = (chain.volume.clone(), chain.drive.clone());
    let mut model = Memory { volume, drive, ..Memory::default() };
    let mut other = model.clone();
    let (mut model_noted, mut other_noted) = (Memory::default(), Memory::default());
    for (number, step) in chain.steps.iter().enumerate() {
        prepare(step, &mut model, &mut model_noted);
        prepare(step, &mut other, &mut other_noted);
        let mut fault = None;
        let (row, answer, got) = match step {
            Step::LogIn(geometry) => {
                let answer = seam::log_in(*geometry, &mut model);
                (Row::LogInEntry, answer, under_test.log_in(*geometry, &mut other))
            }
            Step::Call(call) => {
                let answer = seam::call(call.function, call.parameter, &mut model);
                (Row::of(call.function), answer, under_test.call(call.function, call.parameter, &mut other))
            }
            Step::Cut(most, call) => {
                let before = model.clone();
                let answer = cut::cut(*most, call.function, call.parameter, &mut model);
                fault = cuts::first_fault(*most, call, &before, &model, answer);
                (Row::CutEntry, answer, under_test.cut(*most, call.function, call.parameter, &mut other))
            }
            Step::Fault(geometry, _) => {
                let answer = telling::fault(*geometry, &mut model);
                (Row::FaultEntry, answer, under_test.fault(*geometry, &mut other))
            }
            Step::File(from, _) => {
                let answer = telling::file(*from, &mut model);
                (Row::FileEntry, answer, under_test.file(*from, &mut other))
            }
            Step::Replace(asked, _) => {
                let answer = desk::replace(*asked, &mut model);
                (Row::ReplaceEntry, answer, under_test.replace(*asked, &mut other))
            }
            Step::Who(siglum, own, house) => {
                let told = desk::manuscript(*siglum, own, house);
                let got = under_test.manuscript(*siglum, own, house);
                fault = got.as_ref().ok().and_then(|&got| halves_differ(got, told));
                (Row::WhoEntry, told as u32, got.map(|got| got as u32))
            }
            _ => continue,
        };
        tally.count(row, answer % 65536);
        if let Some(what) = difference(got, answer, &other, &model).or(fault) {
            let what = format!("step {} ({}): {}", number, row.name(), what);
            return Some(Difference { what, details: details(step, &other, &model) });
        }
    }
    None
}

/// Where the name begins, in the high half of what a siglum means.
fn halves_differ(got: u64, told: u64) -> Option<String> {
    numbers_differ("name's place", (got >> 32) as u32, (told >> 32) as u32)
}

/// What a step lays ready, notes, or puts back.
fn prepare(step: &Step, memory: &mut Memory, noted: &mut Memory) {
    match step {
        Step::Volume(bytes) => memory.volume = bytes.clone(),
        Step::Drive(bytes) => memory.drive = bytes.clone(),
        Step::Lay(offset, bytes) => lay(&mut memory.volume, *offset, bytes),
        Step::Note => *noted = memory.clone(),
        Step::Back => {
            memory.drive = noted.drive.clone();
            memory.volume = noted.volume.clone();
        }
        Step::LogIn(_) | Step::Who(..) => {}
        Step::Replace(_, control) => memory.control = control.clone(),
        Step::Fault(_, lent) | Step::File(_, lent) => memory.buffer = lent.clone(),
        Step::Call(call) | Step::Cut(_, call) => {
            memory.control = call.control.clone();
            memory.buffer = call.buffer.clone();
        }
    }
}

fn difference(got: Result<u32, String>, answer: u32, other: &Memory, model: &Memory) -> Option<String> {
    let got = match got {
        Ok(got) => got,
        Err(fault) => return Some(fault),
    };
    numbers_differ("answer", got % 65536, answer % 65536)
        .or_else(|| numbers_differ("count or slot", got / 65536, answer / 65536))
        .or_else(|| bytes_differ("drive", &other.drive, &model.drive))
        .or_else(|| bytes_differ("control block", &other.control, &model.control))
        .or_else(|| bytes_differ("buffer", &other.buffer, &model.buffer))
        .or_else(|| bytes_differ("volume", &other.volume, &model.volume))
}

fn details(step: &Step, other: &Memory, model: &Memory) -> Vec<String> {
    let asked = match step {
        Step::Call(call) => {
            let (control, buffer) = (hex(&call.control), hex(&call.buffer));
            format!("parameter {}, control block {}, buffer {}", call.parameter, control, buffer)
        }
        Step::LogIn(geometry) | Step::Fault(geometry, _) => {
            let Geometry { block_bytes, blocks, directory_blocks, placing } = geometry;
            format!("B {}, T {}, D {}, placing {}", block_bytes, blocks, directory_blocks, placing)
        }
        Step::Cut(most, call) => {
            let (control, buffer) = (hex(&call.control), hex(&call.buffer));
            format!(
                "at most {} stores, function {}, parameter {}, control block {}, buffer {}",
                most, call.function, call.parameter, control, buffer
            )
        }
        Step::File(from, _) => format!("from slot {}", from),
        Step::Replace(asked, control) => format!("{:?}, control block {}", asked, hex(control)),
        Step::Who(siglum, own, house) => {
            format!("siglum {}, own list {}, house list {}", siglum, hex(own), hex(house))
        }
        _ => String::new(),
    };
    let lines = [("asked  ", asked), ("it has ", shown(other)), ("model  ", shown(model))];
    lines.map(|(head, line)| head.to_string() + &line).to_vec()
}

/// All but the volume.
fn shown(memory: &Memory) -> String {
    let (drive, control, buffer) = (hex(&memory.drive), hex(&memory.control), hex(&memory.buffer));
    format!("drive {}, control block {}, buffer {}", drive, control, buffer)
}
