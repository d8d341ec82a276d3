//! That the comparison finds mistakes and says where they are: a seam that is
//! the model but for one thing, and texts that differ in one place.

use crate::check::side_by_side;
use crate::check::table::Tally;
use crate::check::transcripts::first_difference;
use crate::choose::chains::chain;
use crate::choose::columns::column;
use crate::choose::cuttings::cutting;
use crate::choose::tellings;
use crate::doors::cut;
use crate::doors::desk::{self, Replacement};
use crate::doors::drive_bytes::{DRIVE_BYTES, PLACING, WIDE_DRIVE_BYTES};
use crate::doors::seam::{self, Memory, Seam};
use crate::doors::telling;
use crate::paper::calls::*;
use crate::paper::control::CR;
use crate::paper::floppy::{logical, start, IMAGE_BYTES};
use crate::paper::geometry::{Geometry, FLOPPY, RECORD};

/// Numbers for the entries beside `churawel_log_in` and `churawel_call`.
const REPLACE: u8 = 251;
const WHO: u8 = 252;
const CUT: u8 = 253;
const FAULT: u8 = 254;
const FILE: u8 = 255;

/// Given the function (0 for `churawel_log_in`), the answer and what is lent
/// after it; a new answer or a fault.
type Mistake = fn(u8, u32, &mut Memory) -> Result<u32, String>;

/// The model, with a mistake after each call.
pub struct Mistaken {
    mistake: Mistake,
}

impl Mistaken {
    /// The model as it is.
    pub const NOT_AT_ALL: Mistaken = Mistaken { mistake: |_, answer, _| Ok(answer) };
}

impl Seam for Mistaken {
    fn log_in(&self, geometry: Geometry, memory: &mut Memory) -> Result<u32, String> {
        let answer = seam::log_in(geometry, memory);
        (self.mistake)(0, answer, memory)
    }

    fn call(&self, function: u8, parameter: u8, memory: &mut Memory) -> Result<u32, String> {
        let answer = seam::call(function, parameter, memory);
        (self.mistake)(function, answer, memory)
    }

    fn cut(&self, most: u32, function: u8, parameter: u8, memory: &mut Memory) -> Result<u32, String> {
        let answer = cut::cut(most, function, parameter, memory);
        (self.mistake)(CUT, answer, memory)
    }

    fn fault(&self, geometry: Geometry, memory: &mut Memory) -> Result<u32, String> {
        let answer = telling::fault(geometry, memory);
        (self.mistake)(FAULT, answer, memory)
    }

    fn file(&self, from: u32, memory: &mut Memory) -> Result<u32, String> {
        let answer = telling::file(from, memory);
        (self.mistake)(FILE, answer, memory)
    }

    fn replace(&self, asked: Replacement, memory: &mut Memory) -> Result<u32, String> {
        let answer = desk::replace(asked, memory);
        (self.mistake)(REPLACE, answer, memory)
    }

    fn manuscript(&self, siglum: u16, own: &[u8], house: &[u8]) -> Result<u64, String> {
        let told = desk::manuscript(siglum, own, house);
        let low = (self.mistake)(WHO, told as u32, &mut Memory::default())?;
        Ok((told >> 32 << 32) + low as u64)
    }
}

/// The first difference in four times so many chains, a quarter of them tellings,
/// a quarter cuttings and a quarter columns.
fn difference(mistake: Mistake, numbers: u64) -> Option<String> {
    let mistaken = Mistaken { mistake };
    let chains =
        |number| [chain(3, number), tellings::telling(3, number), cutting(3, number), column(3, number)];
    (0..numbers).flat_map(chains).find_map(|chain| {
        let difference = side_by_side::first_difference(&chain, &mistaken, &mut Tally::default());
        difference.map(|difference| difference.what)
    })
}

/// The mistake is found, and the words for it contain these.
fn found(mistake: Mistake, words: &str) {
    let what = difference(mistake, 1000).expect("a difference");
    assert!(what.starts_with("step ") && what.contains(words), "{}", what);
}

#[test]
fn the_model_agrees_with_itself() {
    assert_eq!(difference(Mistaken::NOT_AT_ALL.mistake, 100), None);
}

#[test]
fn a_wrong_answer() {
    let mistake: Mistake = |function, answer, _| match (function, answer) {
        (RANDOM_READ, 4) => Ok(1),
        _ => Ok(answer),
    };
    found(mistake, "(function 33): the answer is 1, by the model 4");
}

#[test]
fn a_wrong_count_or_slot() {
    let mistake: Mistake = |function, answer, _| Ok(if function == 0 { answer ^ 65536 } else { answer });
    found(mistake, "(churawel_log_in): the count or slot is ");
}

#[test]
fn a_wrong_byte_in_each_thing_lent() {
    let drive: Mistake = |function, answer, memory| {
        if function == PROTECT && answer == 0 {
            memory.drive[7] = 0;
        }
        Ok(answer)
    };
    found(drive, "(function 28): byte 7 of the drive is 00, by the model 01");
    let control: Mistake = |function, answer, memory| {
        if function == SEQUENTIAL_READ && answer == 0 {
            memory.control[CR] -= 1;
        }
        Ok(answer)
    };
    found(control, "(function 20): byte 32 of the control block is ");
    let buffer: Mistake = |function, answer, memory| {
        if function == SEARCH_NEXT && answer <= 3 {
            memory.buffer[127] ^= 1;
        }
        Ok(answer)
    };
    found(buffer, "(function 18): byte 127 of the buffer is ");
    let volume: Mistake = |function, answer, memory| {
        if function == DELETE && answer == 0 {
            memory.volume[0] ^= 0x80;
        }
        Ok(answer)
    };
    found(volume, "(function 19): byte 0 of the volume is ");
}

#[test]
fn a_refusal_that_writes_the_drive_back() {
    let mistake: Mistake = |function, answer, memory| {
        if function != 0 && answer == 32 {
            memory.drive.fill(0);
        }
        Ok(answer)
    };
    found(mistake, " of the drive is 00, by the model ");
}

#[test]
fn a_number_that_is_not_served() {
    let mistake: Mistake =
        |function, answer, _| Ok(if answer == 31 && function != CUT { 32 } else { answer });
    found(mistake, "(a number that is not served): the answer is 32, by the model 31");
}

#[test]
fn a_fault_that_no_byte_shows() {
    found(|_, _, _| Err("a byte before or behind".to_string()), "a byte before or behind");
}

const TEXT: &str = "13 0 1 - -\n33 1 0 =0041 =AB\nRECORD 8 010203\nEND 2\n";

/// The text with one part exchanged, and the words for the difference.
fn text_differs(part: &str, other: &str, words: &str) {
    let got = TEXT.replacen(part, other, 1);
    let difference = first_difference(&got, TEXT).expect("a difference");
    assert_eq!(difference.what, words);
}

#[test]
fn texts_that_differ() {
    assert_eq!(first_difference(TEXT, TEXT), None);
    text_differs("13 0 1", "13 0 2", "call 0 (function 13): the value is '2', by the model '1'");
    text_differs("33 1", "33 4", "call 1 (function 33): the answer is '4', by the model '1'");
    text_differs(
        "=0041",
        "=0042",
        "call 1 (function 33): byte 1 of the control block is 42, by the model 41",
    );
    text_differs("=0041", "=00", "call 1 (function 33): the control block has 2 digits, by the model 4");
    text_differs("=AB", "-", "call 1 (function 33): the buffer is '-', by the model '=AB'");
    text_differs("010203", "010703", "RECORD 8: byte 1 of the record is 07, by the model 02");
    text_differs("RECORD 8", "RECORD 9", "line 2: 'RECORD 9 010203', by the model 'RECORD 8 010203'");
    text_differs("RECORD 8 010203\n", "", "line 2: 'END 2', by the model 'RECORD 8 010203'");
    text_differs("END 2\n", "END 2", "line 4: 'no line, nor a line feed before it', by the model ''");
}

#[test]
fn another_rule_or_slot_of_a_fault() {
    let rule: Mistake = |function, answer, memory| {
        if function == FAULT && memory.buffer.first() == Some(&10) {
            memory.buffer[0] = 11;
        }
        Ok(answer)
    };
    found(rule, "(churawel_fault): byte 0 of the buffer is 0B, by the model 0A");
    let other: Mistake = |function, answer, memory| {
        if function == FAULT && memory.buffer.first() == Some(&11) {
            memory.buffer[6] ^= 1;
        }
        Ok(answer)
    };
    found(other, "(churawel_fault): byte 6 of the buffer is ");
}

#[test]
fn a_wrong_line_of_a_file() {
    let blocks: Mistake = |function, answer, memory| {
        if function == FILE && answer % 65536 == 0 {
            memory.buffer[18] += 1;
        }
        Ok(answer)
    };
    found(blocks, "(churawel_file): byte 18 of the buffer is ");
    let slot: Mistake = |function, answer, _| Ok(if function == FILE { answer + (1 << 16) } else { answer });
    found(slot, "(churawel_file): the count or slot is ");
}

#[test]
fn a_wrong_cut() {
    let stays_open: Mistake = |function, answer, memory| {
        if function == CUT && answer % 65536 == 0 {
            memory.drive[1] = 4;
        }
        Ok(answer)
    };
    found(stays_open, "(churawel_cut): byte 1 of the drive is 04, by the model 00");
    let one_more: Mistake =
        |function, answer, _| Ok(if function == CUT && answer > 65535 { answer + 65536 } else { answer });
    found(one_more, "(churawel_cut): the count or slot is ");
    let code: Mistake = |function, answer, _| Ok(if function == CUT && answer == 0 { 3 } else { answer });
    found(code, "(churawel_cut): the answer is 3, by the model 0");
    let half: Mistake = |function, answer, memory| {
        if function == CUT && answer > 65535 {
            memory.volume[100] ^= 1;
        }
        Ok(answer)
    };
    found(half, "(churawel_cut): byte 100 of the volume is ");
}

#[test]
fn a_wrong_desk() {
    let listed: Mistake =
        |function, answer, _| Ok(if function == REPLACE && answer > 65535 { answer + 65536 } else { answer });
    found(listed, "(churawel_replace_siglum): the count or slot is ");
    let fills_drive: Mistake = |function, answer, memory| {
        if function == REPLACE && answer > 65535 {
            memory.drive[7] ^= 1;
        }
        Ok(answer)
    };
    found(fills_drive, "(churawel_replace_siglum): byte 7 of the drive is ");
    let house: Mistake =
        |function, answer, _| Ok(if function == WHO && answer == 65536 { 0 } else { answer });
    found(house, "(churawel_manuscript): the count or slot is 0, by the model 1");
}

/// Whether the drive in hand is as long as a wide volume asks for.
fn is_wide(memory: &Memory) -> bool {
    memory.drive.len() == WIDE_DRIVE_BYTES
}

#[test]
fn wrong_bytes_of_wide_volumes() {
    let four_words: Mistake = |function, answer, memory| {
        if function == 0 && answer % 65536 == 0 && is_wide(memory) {
            memory.drive[64..].fill(0);
        }
        Ok(answer)
    };
    found(four_words, " of the drive is 00, by the model ");
    let not_freed: Mistake = |function, answer, memory| {
        if function == DELETE && answer == 0 && is_wide(memory) {
            memory.drive[64] |= 1;
        }
        Ok(answer)
    };
    found(not_freed, "(function 19): byte 64 of the drive is ");
    let low_byte_alone: Mistake = |function, answer, memory| {
        if function == RANDOM_READ && answer == 0 && is_wide(memory) {
            memory.control[17] = 0;
        }
        Ok(answer)
    };
    found(low_byte_alone, "(function 33): byte 17 of the control block is 00, by the model ");
    let high_byte_first: Mistake = |function, answer, memory| {
        if function == RANDOM_WRITE && answer == 0 && is_wide(memory) {
            memory.control.swap(16, 17);
        }
        Ok(answer)
    };
    found(high_byte_first, "(function 34): byte 16 of the control block is ");
    let fault_of_one_byte: Mistake = |function, answer, memory| {
        if function == FAULT && answer % 65536 == 36 {
            memory.buffer[3] = 0;
        }
        Ok(answer)
    };
    found(fault_of_one_byte, "(churawel_fault): byte 3 of the buffer is 00, by the model ");
}

#[test]
fn wrong_bytes_of_floppies() {
    fn is_image(memory: &Memory) -> bool {
        memory.volume.len() == IMAGE_BYTES && memory.drive.get(PLACING) == Some(&1)
    }
    let reserved: Mistake = |function, answer, memory| {
        if function == RANDOM_WRITE && answer == 0 && is_image(memory) {
            memory.volume[0] ^= 1;
        }
        Ok(answer)
    };
    found(reserved, "(function 34): byte 0 of the volume is ");
    let last_six: Mistake = |function, answer, memory| {
        if function == DELETE && answer == 0 && is_image(memory) {
            memory.volume[start(1949)] ^= 1;
        }
        Ok(answer)
    };
    found(last_six, "(function 19): byte 255616 of the volume is ");
    let in_order: Mistake = |function, answer, memory| {
        if function == MAKE && answer <= 3 && is_image(memory) {
            let volume = logical(&FLOPPY, &memory.volume).into_owned();
            memory.volume[2 * 26 * RECORD..][..volume.len()].copy_from_slice(&volume);
        }
        Ok(answer)
    };
    found(in_order, "(function 22): byte ");
    let placing_lost: Mistake = |function, answer, memory| {
        if LOG_INS.contains(&function) && answer % 65536 == 0 {
            memory.drive[PLACING] = 0;
        }
        Ok(answer)
    };
    found(placing_lost, ": byte 24 of the drive is 00, by the model 01");
}

#[test]
fn a_drive_of_the_other_width_that_is_closed() {
    fn fits_some_t(memory: &Memory) -> bool {
        [DRIVE_BYTES, WIDE_DRIVE_BYTES].contains(&memory.drive.len())
    }
    let by_log_in: Mistake = |function, answer, memory| {
        if function == 0 && answer == 32 && fits_some_t(memory) {
            memory.drive.fill(0);
        }
        Ok(answer)
    };
    found(by_log_in, "(churawel_log_in): byte 0 of the drive is 00, by the model ");
    let by_a_cut: Mistake = |function, answer, memory| {
        if function == CUT && answer == 32 && fits_some_t(memory) {
            memory.drive.fill(0);
        }
        Ok(answer)
    };
    found(by_a_cut, "(churawel_cut): byte ");
}
