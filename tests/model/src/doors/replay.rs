//! What `replay` must print for a script: a line for each call, the records
//! of the volume that differ, and the number of calls.

use super::script::{lay, Call, Script, TOUCH};
use crate::paper::calls::{self, Lent, LOG_INS};
use crate::paper::geometry::{Geometry, RECORD};
use crate::paper::held::Way;
use crate::paper::inspection::log_in;
use crate::paper::state::Drive;

/// What one call answered and left: a line of `replay`.
#[derive(Clone, PartialEq, Eq, Debug)]
pub struct Line {
    pub function: u8,
    pub answer: u32,
    /// Log-in: count or slot; several records: how many were done; else 0.
    pub value: u32,
    /// The bytes afterwards, if the call is lent a control block.
    pub control: Option<Vec<u8>>,
    /// The bytes afterwards, if the call is lent a transfer buffer.
    pub buffer: Option<Vec<u8>>,
}

/// A run of calls over an image, call by call.
#[derive(Clone, PartialEq, Eq, Debug)]
pub struct Player {
    pub geometry: Geometry,
    pub volume: Vec<u8>,
    pub drive: Drive,
    pub way: Way,
}

impl Player {
    pub fn new(geometry: Geometry, volume: Vec<u8>, way: Way) -> Player {
        Player { geometry, volume, drive: None, way }
    }

    pub fn play(&mut self, call: &Call) -> Line {
        match call.function {
            TOUCH => self.touch(call),
            function if LOG_INS.contains(&function) => self.log_in(function),
            _ => self.call(call),
        }
    }

    fn touch(&mut self, call: &Call) -> Line {
        if let Some((offset, bytes)) = call.touched() {
            lay(&mut self.volume, offset, bytes);
        }
        Line { function: TOUCH, answer: 0, value: 0, control: None, buffer: None }
    }

    fn log_in(&mut self, function: u8) -> Line {
        let (answer, value, drive) = log_in(self.geometry, &self.volume, self.way);
        self.drive = drive;
        Line { function, answer, value, control: None, buffer: None }
    }

    fn call(&mut self, call: &Call) -> Line {
        let function = call.function;
        let mut control = call.control.clone();
        let mut buffer = call.buffer.clone();
        let mut lent = Lent { volume: &mut self.volume, control: &mut control, buffer: &mut buffer };
        let (answer, value) = calls::call(&mut self.drive, function, call.parameter, &mut lent);
        let control = calls::is_lent_control(function).then_some(control);
        let buffer = calls::is_lent_buffer(function).then_some(buffer);
        Line { function, answer, value, control, buffer }
    }
}

/// All that `replay` must print for a script, and its lines.
pub fn expected(script: &Script) -> (String, Vec<Line>) {
    let mut player = Player::new(script.geometry, script.volume.clone(), Way::Kept);
    let lines: Vec<Line> = script.calls.iter().map(|call| player.play(call)).collect();
    let mut text = String::new();
    for line in &lines {
        print_line(line, &mut text);
    }
    if script.bad {
        text += &format!("BAD SCRIPT {}\n", lines.len());
    }
    print_records(&script.volume, &player.volume, &mut text);
    text += &format!("END {}\n", lines.len());
    (text, lines)
}

fn print_line(line: &Line, text: &mut String) {
    *text += &format!("{} {} {}", line.function, line.answer, line.value);
    for lent in [&line.control, &line.buffer] {
        match lent {
            Some(bytes) => *text += &format!(" ={}", hex(bytes)),
            None => *text += " -",
        }
    }
    text.push('\n');
}

fn print_records(before: &[u8], after: &[u8], text: &mut String) {
    for (q, (old, new)) in before.chunks(RECORD).zip(after.chunks(RECORD)).enumerate() {
        if old != new {
            *text += &format!("RECORD {} {}\n", q, hex(new));
        }
    }
}

/// Two capital digits for each byte.
pub fn hex(bytes: &[u8]) -> String {
    const DIGITS: &[u8; 16] = b"0123456789ABCDEF";
    let mut text = String::with_capacity(2 * bytes.len());
    for byte in bytes {
        text.push(DIGITS[(byte >> 4) as usize] as char);
        text.push(DIGITS[(byte & 15) as usize] as char);
    }
    text
}
