//! The refusals 255, 3, 38 and 43: the file.

use super::*;
use crate::paper::calls::*;
use crate::paper::control::EX;

#[test]
fn number_255_no_match() {
    let mut b = bench();
    for function in [OPEN, CLOSE, SEARCH_FIRST, DELETE, RENAME, ATTRIBUTES, SIZE] {
        refused_on(&mut b, function, "NOFILE", 255);
    }
    // None open.
    refused(&mut b, SEARCH_NEXT, 0, 255);
    // Another group.
    b.control = control_for("A.TXT");
    b.control[EX] = 1;
    refused(&mut b, OPEN, 0, 255);
    refused(&mut b, CLOSE, 0, 255);
    refused(&mut b, SEARCH_FIRST, 0, 255);
    // Another user.
    b.call_with(USER, 1);
    refused_on(&mut b, OPEN, "A.TXT", 255);
}

#[test]
fn number_255_make_on_a_full_directory() {
    let mut b = Bench::open(1024, 2, 1, Way::Plain);
    for number in 0..32 {
        assert_eq!(b.on(MAKE, &format!("F{}", number)), number % 4);
    }
    refused_on(&mut b, MAKE, "F32", 255);
    // The name exists: 43 comes first.
    refused_on(&mut b, MAKE, "F31", 43);
}

#[test]
fn number_3_no_entry_of_that_name() {
    let mut b = bench();
    for function in [SEQUENTIAL_READ, SEQUENTIAL_WRITE, RANDOM_READ, RANDOM_WRITE, ZERO_FILL_WRITE] {
        refused_on(&mut b, function, "NOFILE", 3);
    }
}

#[test]
fn number_38_read_only() {
    let mut b = bench();
    assert_eq!(b.write("A.TXT", 128, 1), 0);
    // The second entry alone.
    b.set_byte(1, 9, b'T' | 0x80);
    for function in [SEQUENTIAL_WRITE, RANDOM_WRITE, ZERO_FILL_WRITE, RENAME, DELETE] {
        refused_on(&mut b, function, "A.TXT", 38);
    }
    // 38 before 43.
    b.control = control_for("A.TXT");
    b.control[17..28].copy_from_slice(&name("A.TXT"));
    refused(&mut b, RENAME, 0, 38);
    // Attributes take it away from all entries.
    assert_eq!(b.on(ATTRIBUTES, "A.TXT"), 0);
    assert_eq!(b.entry(1).bytes[9], b'T');
    assert_eq!(b.on(DELETE, "A.TXT"), 0);
}

#[test]
fn number_43_exists() {
    let mut b = bench();
    b.on(MAKE, "B.TXT");
    refused_on(&mut b, MAKE, "A.TXT", 43);
    b.control = control_for("A.TXT");
    b.control[9] |= 0x80;
    refused(&mut b, MAKE, 0, 43);
    for new in ["B.TXT", "A.TXT"] {
        b.control = control_for("A.TXT");
        b.control[17..28].copy_from_slice(&name(new));
        refused(&mut b, RENAME, 0, 43);
    }
    // Another user's file of that name does not count.
    b.call_with(USER, 2);
    assert_eq!(b.on(MAKE, "A.TXT"), 2);
}
