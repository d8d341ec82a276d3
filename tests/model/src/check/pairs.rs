//! The pairs of call and answer that the paper makes possible, written down by
//! hand from "Numbers of refusal, in order of test" and "What each call does
//! when it succeeds", so that each of them can be asked to occur.

use std::collections::BTreeSet;

use crate::paper::calls::is_served;

/// A line of the table of calls against answers.
#[derive(Clone, Copy, PartialEq, Eq, PartialOrd, Ord, Debug)]
pub enum Row {
    /// `churawel_log_in`.
    LogInEntry,
    /// `churawel_cut`, whatever the function.
    CutEntry,
    /// `churawel_fault`.
    FaultEntry,
    /// `churawel_file`.
    FileEntry,
    /// `churawel_replace_siglum`.
    ReplaceEntry,
    /// `churawel_manuscript`.
    WhoEntry,
    /// A function's number, through `replay` or `churawel_call`.
    Function(u8),
    /// Any number that is not served, through `churawel_call`.
    NotServed,
}

impl Row {
    pub fn of(function: u8) -> Row {
        if is_served(function) {
            Row::Function(function)
        } else {
            Row::NotServed
        }
    }

    pub fn name(&self) -> String {
        match self {
            Row::LogInEntry => "churawel_log_in".to_string(),
            Row::CutEntry => "churawel_cut".to_string(),
            Row::FaultEntry => "churawel_fault".to_string(),
            Row::FileEntry => "churawel_file".to_string(),
            Row::ReplaceEntry => "churawel_replace_siglum".to_string(),
            Row::WhoEntry => "churawel_manuscript".to_string(),
            Row::Function(function) => format!("function {}", function),
            Row::NotServed => "a number that is not served".to_string(),
        }
    }
}

#[derive(Clone, Copy, PartialEq, Eq, Debug)]
pub enum Door {
    Replay,
    Seam,
}

/// An answer, and the functions that can give it at both doors.
type Given = (u32, &'static [u8]);

/// The table's rows from top to bottom. Function 31 ("not served") and what
/// only the seam can show stand in `possible`.
const REFUSALS: &[Given] = &[
    // Closed state; for log-in a geometry outside the rules.
    (32, &[13, 15, 16, 17, 18, 19, 20, 21, 22, 23, 28, 30, 32, 33, 34, 35, 36, 37, 40, 220, 221]),
    // Through replay only log-in meets a wrong length: a state that is open had
    // its log-in with the header's geometry on this volume.
    (33, &[13, 37]),
    // Not log-in, 18, 28, 32: lent no control block.
    (34, &[15, 16, 17, 19, 20, 21, 22, 23, 30, 33, 34, 35, 36, 40, 220, 221]),
    // Several records alone have a number of records.
    (46, &[220, 221]),
    // Only search, reads and writes are lent a buffer.
    (35, &[17, 18, 20, 21, 33, 34, 40, 220, 221]),
    // All that are lent a control block.
    (42, &[15, 16, 17, 19, 20, 21, 22, 23, 30, 33, 34, 35, 36, 40, 220, 221]),
    (44, &[32]),
    // All that are lent a control block but 36, which examines no name.
    (39, &[15, 16, 17, 19, 20, 21, 22, 23, 30, 33, 34, 35, 40, 220, 221]),
    // Those that give a file a name.
    (45, &[22, 23]),
    // Delete, rename, attributes, size and the random calls use none of ex, s2, cr.
    (40, &[15, 16, 17, 20, 21, 22, 36, 220, 221]),
    // Not 36: it shows position 65,536.
    (6, &[20, 21, 33, 34, 40, 220, 221]),
    (36, &[13, 37]),
    // Those that change the volume.
    (37, &[19, 21, 22, 23, 30, 34, 40, 221]),
    // 22: no slot is empty, in the place of 5.
    (255, &[15, 16, 17, 18, 19, 22, 23, 30, 35]),
    (3, &[20, 21, 33, 34, 40, 220, 221]),
    // Not 30: attributes can take read-only away. Not 22: it names no file.
    (38, &[19, 21, 23, 34, 40, 221]),
    (43, &[22, 23]),
    // Not 20 and 220, which answer 1 here; writes make the group.
    (4, &[33]),
    (1, &[20, 33, 220]),
    // Needs a volume that something else has touched since log-in.
    (41, &[20, 21, 33, 34, 40, 220, 221]),
    (5, &[21, 34, 40, 221]),
    (2, &[21, 34, 40, 221]),
];

/// The seam lends a volume with every call, so that its length may be wrong
/// there for all calls but those that are lent none: 28, 32, 36.
const WRONG_LENGTH_AT_SEAM: &[u8] = &[15, 16, 17, 18, 19, 20, 21, 22, 23, 30, 33, 34, 35, 40, 220, 221];

/// Slot modulo 4 (for 18 slot 0 is not possible, but slot 4 is).
const CODES: &[u8] = &[15, 16, 17, 18, 22];

/// All others answer 0 when they succeed.
const ZERO: &[u8] = &[13, 19, 20, 21, 23, 28, 30, 32, 33, 34, 35, 36, 37, 40, 220, 221];

pub fn possible(door: Door) -> BTreeSet<(Row, u32)> {
    let mut pairs = BTreeSet::new();
    let mut add = |answer: u32, functions: &[u8]| {
        pairs.extend(functions.iter().map(|&function| (Row::Function(function), answer)));
    };
    for (answer, functions) in REFUSALS {
        add(*answer, functions);
    }
    for code in 0..=3 {
        add(code, CODES);
    }
    add(0, ZERO);
    // 255 given, and this is the current code.
    for user in 1..=15 {
        add(user, &[32]);
    }
    if door == Door::Seam {
        add(33, WRONG_LENGTH_AT_SEAM);
        // Replay ends with BAD SCRIPT at such a number. A closed drive comes first.
        pairs.extend([(Row::NotServed, 31), (Row::NotServed, 32)]);
        // 32 for a drive of another length too.
        pairs.extend([0, 32, 33, 36].map(|answer| (Row::LogInEntry, answer)));
        // Every refusal of a call, and 0 for every success.
        pairs.extend(REFUSALS.iter().map(|(answer, _)| (Row::CutEntry, *answer)));
        pairs.extend([0, 31].map(|answer| (Row::CutEntry, answer)));
        // What is lent for the bytes may have another length.
        pairs.extend([0, 32, 33, 35, 36].map(|answer| (Row::FaultEntry, answer)));
        pairs.extend([0, 32, 33, 35, 255].map(|answer| (Row::FileEntry, answer)));
        // "The file's own at record 0 (37 and 38 too)", then 50.
        let replaced = [0, 32, 33, 34, 42, 39, 37, 3, 38, 4, 1, 41, 50];
        pairs.extend(replaced.map(|answer| (Row::ReplaceEntry, answer)));
        pairs.extend([0, 52, 51].map(|answer| (Row::WhoEntry, answer)));
    }
    pairs
}
