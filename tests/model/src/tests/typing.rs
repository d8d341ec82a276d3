//! Names the typist can't type: 45 for make and for rename's new name, its place in the order, and an old file
//! called a=b that all other calls still take.

use super::*;
use crate::paper::calls::*;
use crate::paper::control::{DR, EX, R0, R1, R2, RC};
use crate::paper::names::can_be_typed;

/// V with a=b, which has record 0 in block 1: bytes as somebody else's system may have left them.
fn with_old_file() -> Bench {
    let mut b = Bench::closed(1024, 40, 1, Way::Kept);
    b.volume[..32].fill(0);
    b.volume[1..12].copy_from_slice(b"a=b        ");
    b.volume[15] = 1;
    b.volume[16] = 1;
    assert_eq!(b.log_in(), (0, 38));
    b
}

/// Make, and rename of A.TXT to it, are refused with the number.
fn both_refused(b: &mut Bench, new: &[u8; 11], number: u32) {
    b.control = vec![0; 36];
    b.control[1..12].copy_from_slice(new);
    refused(b, MAKE, 0, number);
    b.control = control_for("A.TXT");
    b.control[17..28].copy_from_slice(new);
    refused(b, RENAME, 0, number);
}

/// Make succeeds, and so does a rename of A.TXT to it.
fn both_taken(new: &[u8; 11]) {
    let mut b = bench();
    b.control = vec![0; 36];
    b.control[1..12].copy_from_slice(new);
    assert_eq!(b.call(MAKE), 1, "{:?}", new);
    let mut b = bench();
    b.control = control_for("A.TXT");
    b.control[17..28].copy_from_slice(new);
    assert_eq!(b.call(RENAME), 0, "{:?}", new);
}

#[test]
fn number_45_bytes() {
    // In each place of name and type, with and without a top bit.
    for byte in b"<>.,;:=*[]abcdefghijklmnopqrstuvwxyz" {
        for place in 0..11 {
            for top in [0, 0x80] {
                let mut new = *b"ABCDEFGHIJK";
                new[place] = byte | top;
                both_refused(&mut bench(), &new, 45);
            }
        }
    }
    // Every other byte of the byte rule is taken, but for a blank before the letters behind it.
    for byte in b"!\"#$%&'()+-/0123456789@ABCDEFGHIJKLMNOPQRSTUVWXYZ\\^_`{|}~" {
        both_taken(&[*byte; 11]);
    }
}

#[test]
fn number_45_blanks() {
    for new in [
        b"A B        ",
        b"AB   C     ",
        b"A      B   ",
        b"ABCDEF GTXT",
        b"A       A B",
        b"A        BC",
        b"A         C",
        b"A        B ",
        b"A B      BC",
        b"A\xA0B        ",
    ] {
        both_refused(&mut bench(), new, 45);
    }
    for new in
        [b"A          ", b"ABCDEFG    ", b"ABCDEFGHA  ", b"AB      AB ", b"ABCDEFGH   ", b"A\xA0\xA0     ABC"]
    {
        both_taken(new);
    }
}

#[test]
fn number_45_between_39_and_40() {
    let mut b = bench();
    // 42 and 39 come first, 39 of the old name too.
    b.control = vec![0; 36];
    b.control[1..12].copy_from_slice(b"a=b        ");
    b.control[DR] = 2;
    refused(&mut b, MAKE, 0, 42);
    both_refused(&mut b, b"a=?        ", 39);
    b.control = control_for("A?.TXT");
    b.control[17..28].copy_from_slice(b"a=b        ");
    refused(&mut b, RENAME, 0, 39);
    // 40, 37, 255, 38 and 43 come after it.
    b.control = control_for("a=b");
    b.control[EX] = 1;
    refused(&mut b, MAKE, 0, 45);
    b.control = control_for("NOFILE");
    b.control[17..28].copy_from_slice(b"a=b        ");
    refused(&mut b, RENAME, 0, 45);
    b.set_byte(0, 9, b'T' | 0x80);
    both_refused(&mut b, b"a=b        ", 45);
    b.state().protected = true;
    both_refused(&mut b, b"a=b        ", 45);
    let mut b = with_old_file();
    b.control = control_for("a=b");
    b.control[17..28].copy_from_slice(b"a=b        ");
    refused(&mut b, RENAME, 0, 45);
    refused(&mut b, MAKE, 0, 45);
}

#[test]
fn an_old_file_is_opened_read_and_written() {
    let mut b = with_old_file();
    assert_eq!(b.on(OPEN, "a=b"), 0);
    assert_eq!((&b.control[1..12], b.control[RC], b.control[16]), (&b"a=b        "[..], 1, 1));
    assert_eq!(b.on(SEARCH_FIRST, "?=b"), 0);
    assert_eq!(b.on(SIZE, "a=b"), 0);
    assert_eq!((b.control[R0], b.control[R1], b.control[R2]), (1, 0, 0));
    assert_eq!(b.on(CLOSE, "a=b"), 0);
    assert_eq!(b.random(RANDOM_READ, "a=b", 0), 0);
    assert_eq!(b.buffer, b.volume[1024..1152].to_vec());
    assert_eq!(b.write("a=b", 1, 7), 0);
    assert_eq!(b.volume[1152..1280].to_vec(), vec![7; 128]);
    assert_eq!(b.sequential(SEQUENTIAL_READ, "a=b", 0, 0, 1), 0);
    assert_eq!(b.buffer, vec![7; 128]);
    assert_eq!(b.on(ATTRIBUTES, "a=b"), 0);
    assert_eq!(b.log_in(), (0, 38));
}

#[test]
fn an_old_file_is_renamed_away_or_deleted() {
    let mut b = with_old_file();
    assert_eq!(b.rename("a=b", "SIGLA.TXT"), 0);
    assert_eq!(&b.entry(0).bytes[1..12], b"SIGLA   TXT");
    // There is no way back.
    b.control = control_for("SIGLA.TXT");
    b.control[17..28].copy_from_slice(b"a=b        ");
    refused(&mut b, RENAME, 0, 45);
    let mut b = with_old_file();
    assert_eq!(b.on(DELETE, "a=b"), 0);
    assert_eq!(b.entry(0).bytes[0], 0xE5);
    assert_eq!(b.log_in(), (0, 39));
}

#[test]
fn a_blank_at_the_end_of_the_name_is_not_before_the_type() {
    assert!(can_be_typed(b"A       TXT"));
    assert!(!can_be_typed(b"A       T T"));
}
