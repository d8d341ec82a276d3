//! Sigla by column, worked out by hand.

use super::*;
use crate::check::pairs::{Door, Row};
use crate::check::side_by_side::first_difference;
use crate::check::table::Tally;
use crate::choose::columns::column;
use crate::doors::chain::Chain;
use crate::paper::calls::*;
use crate::paper::control::R2;
use crate::paper::sigla::{manuscript, replace};

const AB: [u8; 2] = *b"Ab";
const XY: [u8; 2] = *b"Xy";

/// Chapter 5 is records 1 and 2, chapter 300 records 3 and 4; record n begins at
/// 1,024 + 128n. "Ab" stands in records 1, 3 and 4.
fn collation() -> Bench {
    let mut b = Bench::open(1024, 8, 1, Way::Kept);
    assert_eq!(b.on(MAKE, "C.TXT"), 0);
    for n in 0..5 {
        assert_eq!(b.write("C.TXT", n, n as u8), 0);
    }
    b.volume[1024..1152].fill(0);
    place(&mut b, 0, [5, 1, 2, 0]);
    place(&mut b, 1, [300, 3, 2, 0]);
    for n in [1, 3, 4] {
        b.volume[1024 + 128 * n..][..2].copy_from_slice(&AB);
    }
    b.control = control_for("C.TXT");
    b.control[R2] = 255;
    b
}

fn place(b: &mut Bench, i: usize, numbers: [u16; 4]) {
    for (k, number) in numbers.iter().enumerate() {
        b.volume[1024 + 8 * i + 2 * k..][..2].copy_from_slice(&number.to_le_bytes());
    }
}

/// The answer where "Ab" is replaced by "Xy" in the chapter; a refusal changes nothing.
fn replaced(b: &mut Bench, chapter: u16) -> Result<u32, u32> {
    let before = b.volume.clone();
    let drive = b.drive.clone();
    let answer = replace(&drive, &mut b.volume, &b.control, chapter, AB, XY);
    assert!(answer.is_ok() || b.volume == before);
    answer
}

#[test]
fn two_bytes_of_matching_records_change_and_no_other() {
    let mut b = collation();
    let mut wanted = b.volume.clone();
    wanted[1024 + 3 * 128..][..2].copy_from_slice(&XY);
    wanted[1024 + 4 * 128..][..2].copy_from_slice(&XY);
    assert_eq!(replaced(&mut b, 300), Ok(2));
    assert_eq!(b.volume, wanted);
    assert_eq!(replaced(&mut b, 300), Ok(0));
    assert_eq!(replaced(&mut b, 5), Ok(1));
}

#[test]
fn contents_against_the_rules_are_50() {
    for (i, numbers) in [
        (0, [5, 2, 2, 0]),
        (1, [300, 4, 1, 0]),
        (1, [300, 3, 0, 0]),
        (1, [300, 3, 2, 1]),
        (1, [5, 3, 2, 0]),
        (1, [0, 0, 0, 1]),
        (2, [7, 5, 1, 0]),
        (2, [7, 5, 65535, 0]),
    ] {
        let mut b = collation();
        place(&mut b, i, numbers);
        assert_eq!(replaced(&mut b, 5), Err(50), "{} {:?}", i, numbers);
    }
    for chapter in [0, 6] {
        assert_eq!(replaced(&mut collation(), chapter), Err(50));
    }
}

#[test]
fn the_files_own_refusals_come_first() {
    let mut b = collation();
    place(&mut b, 0, [5, 9, 9, 9]);
    b.set_byte(0, 9, b'T' | 0x80);
    assert_eq!(replaced(&mut b, 5), Err(38));
    b.state().protected = true;
    assert_eq!(replaced(&mut b, 5), Err(37));
    b.control[3] = b'?';
    assert_eq!(replaced(&mut b, 5), Err(39));
    b.control[0] = 2;
    assert_eq!(replaced(&mut b, 5), Err(42));
    b.control.pop();
    assert_eq!(replaced(&mut b, 5), Err(34));
    b.volume.pop();
    assert_eq!(replaced(&mut b, 5), Err(33));
    b.drive = None;
    assert_eq!(replaced(&mut b, 5), Err(32));
}

#[test]
fn the_own_list_counts_before_the_house_list() {
    let line = |siglum: &[u8; 2]| [&siglum[..], &[b'.'; 30]].concat();
    let own = [line(b"A "), line(b"B "), line(b"B ")].concat();
    let house = [line(b"B "), line(b"C ")].concat();
    assert_eq!(manuscript(*b"B ", &own, &house), Ok((0, 34)));
    assert_eq!(manuscript(*b"C ", &own, &house), Ok((1, 34)));
    assert_eq!(manuscript(*b"D ", &own, &house), Err(51));
    assert_eq!(manuscript(*b"B ", &own, &house[1..]), Err(52));
    assert_eq!(manuscript(*b"D ", &own[1..], &house), Err(52));
}

/// Each answer is met often, and a chain is the same once it was a file.
#[test]
fn columns_meet_every_answer() {
    let mut tally = Tally::default();
    for number in 0..600 {
        let chain = column(1, number);
        assert_eq!(Chain::decode(&chain.encode()), Some(chain.clone()));
        assert!(first_difference(&chain, &mistakes::Mistaken::NOT_AT_ALL, &mut tally).is_none());
    }
    let faults = tally.judge(Door::Seam, true).2;
    let names = [Row::ReplaceEntry.name(), Row::WhoEntry.name()];
    let wrong: Vec<_> = faults.iter().filter(|fault| names.iter().any(|name| fault.contains(name))).collect();
    assert!(wrong.is_empty(), "{:?}", wrong);
}
