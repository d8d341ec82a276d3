//! Names and users for random files.

use super::random::Random;
use crate::paper::names::Name;

/// Two of them can't be typed: as old files they are on images, as new ones they are refused.
const POOL: [&Name; 11] = [
    b"SIGLA   TXT",
    b"PROBE   DAT",
    b"PROBE1  DAT",
    b"PROBE1  DAU",
    b"A          ",
    b"AB         ",
    b"a=b        ",
    b"a.b c   ~!@",
    b"EDITION 001",
    b"EDITION 002",
    b"~~~~~~~~~~~",
];

pub fn name_of_pool(r: &mut Random) -> Name {
    *r.pick(&POOL)
}

/// The forbidden characters and their neighbours, the first and last small letters and theirs, blanks.
const HARD_TO_TYPE: &[u8] = b"<>.,;:=*[]+-/@A\\^_`abyz{|}~   ";

/// A name of the pool with one to three bytes that are forbidden, or nearly.
pub fn name_hard_to_type(r: &mut Random) -> Name {
    let mut name = name_of_pool(r);
    for _ in 0..r.between(1, 3) {
        name[r.between(1, 10)] = r.pick(HARD_TO_TYPE);
    }
    name
}

/// A name that stands for a number.
pub fn numbered_name(number: usize) -> Name {
    let mut name = *b"F0000000NUM";
    let digits = format!("{:07}", number % 10_000_000);
    name[1..8].copy_from_slice(digits.as_bytes());
    name
}

/// Mostly 0.
pub fn user(r: &mut Random) -> u8 {
    r.weighted(&[(70, 0), (10, 1), (5, 7), (10, 15), (5, 3)])
}
