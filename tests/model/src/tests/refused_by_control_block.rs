//! The refusals 42, 44, 39, 40, 6 and 37: what the control block and the user code say, and protection.

use super::*;
use crate::paper::calls::*;
use crate::paper::control::{CR, DR, EX, R0, R1, R2, S2};

#[test]
fn number_42_dr() {
    let mut b = bench();
    for function in WITH_CONTROL {
        for dr in [2, 63, 64, 128, 191, 255] {
            // Everything after dr would be refused too.
            b.control = vec![0xFF; 36];
            b.control[DR] = dr;
            if function == SEARCH_FIRST && dr == 63 {
                assert_eq!(b.call(function), 0);
            } else {
                refused(&mut b, function, 0, 42);
            }
        }
    }
    b.control = control_for("A.TXT");
    b.control[DR] = 1;
    assert_eq!(b.call(OPEN), 0);
}

#[test]
fn number_44_user() {
    let mut b = bench();
    for user in 16..=254 {
        refused(&mut b, USER, user, 44);
    }
    for user in 0..=15 {
        assert_eq!(b.call_with(USER, user), 0);
        assert_eq!(b.call_with(USER, 255), user as u32);
    }
    b.drive = None;
    refused(&mut b, USER, 44, 32);
}

#[test]
fn number_39_names() {
    let named = [15, 16, 17, 19, 20, 21, 22, 23, 30, 33, 34, 35, 40];
    let mut b = bench();
    // Byte 1 is 20H (or A0H); a byte 1FH, 7FH, FFH; ex, s2, r2 wrong as well: 39 comes first.
    for (at, byte) in [(1, 0x20), (1, 0xA0), (2, 0x1F), (11, 0x7F), (8, 0xFF), (5, 0x00), (9, 0x80)] {
        for function in named {
            b.control = control_for("A.TXT");
            b.control[17..28].copy_from_slice(&name("B.TXT"));
            b.control[at] = byte;
            b.control[EX] = 99;
            b.control[R2] = 1;
            refused(&mut b, function, 0, 39);
        }
    }
    // 3FH and BFH are a pattern's, in open, search, delete only.
    for byte in [0x3F, 0xBF] {
        for function in named {
            b = bench();
            b.control = control_for("A.TXT");
            b.control[17..28].copy_from_slice(&name("B.TXT"));
            b.control[1] = byte;
            match function {
                OPEN | SEARCH_FIRST | DELETE => assert_eq!(b.call(function), 0),
                _ => refused(&mut b, function, 0, 39),
            }
        }
    }
    // Rename tests the new name too.
    let mut b = bench();
    b.control = control_for("A.TXT");
    refused(&mut b, RENAME, 0, 39);
    b.control[17..28].copy_from_slice(&name("B.T?T"));
    refused(&mut b, RENAME, 0, 39);
    // 36 examines no name.
    b.control = vec![0; 36];
    assert_eq!(b.call(SET_RANDOM), 0);
}

#[test]
fn number_40_positions() {
    let mut b = bench();
    let set = |ex: u8, s2: u8, cr: u8| {
        let mut control = control_for("A.TXT");
        control[EX] = ex;
        control[S2] = s2;
        control[CR] = cr;
        control
    };
    for (function, ex, s2, cr) in [
        (OPEN, 32, 0, 0),
        (OPEN, 63, 0, 0),
        (SEARCH_FIRST, 32, 0, 0),
        (SEARCH_FIRST, 64, 0, 0),
        (CLOSE, 32, 0, 0),
        (CLOSE, 0, 16, 0),
        (MAKE, 1, 0, 0),
        (SEQUENTIAL_READ, 32, 0, 0),
        (SEQUENTIAL_READ, 0, 16, 0),
        (SEQUENTIAL_READ, 0, 0, 129),
        (SEQUENTIAL_WRITE, 32, 0, 0),
        (SEQUENTIAL_WRITE, 0, 16, 0),
        (SEQUENTIAL_WRITE, 0, 0, 129),
        (SET_RANDOM, 32, 0, 0),
        (SET_RANDOM, 0, 16, 0),
        (SET_RANDOM, 0, 0, 129),
    ] {
        b.control = set(ex, s2, cr);
        refused(&mut b, function, 0, 40);
    }
    // Not where they are not used.
    b.control = set(0, 99, 200);
    assert_eq!(b.call(OPEN), 0);
    b.control = set(0, 0, 200);
    assert_eq!(b.call(CLOSE), 0);
    b.control = set(63, 99, 200);
    assert_eq!(b.call(SEARCH_FIRST), 0);
    b.control = set(255, 255, 255);
    assert_eq!(b.call(SIZE), 0);
    b.control = set(255, 255, 255);
    assert_eq!(b.call(RANDOM_READ), 0);
    b.control = set(0, 99, 200);
    b.control[1..12].copy_from_slice(&name("NEW"));
    assert_eq!(b.call(MAKE), 1);
    assert_eq!(b.control[CR], 200);
}

#[test]
fn number_6_beyond_the_last_record() {
    let mut b = bench();
    b.state().protected = true;
    for function in [RANDOM_READ, RANDOM_WRITE, ZERO_FILL_WRITE] {
        b.control = control_for("NOFILE");
        b.control[R2] = 1;
        refused(&mut b, function, 0, 6);
    }
    for function in [SEQUENTIAL_READ, SEQUENTIAL_WRITE] {
        b.control = control_for("NOFILE");
        b.control[EX] = 31;
        b.control[S2] = 15;
        b.control[CR] = 128;
        refused(&mut b, function, 0, 6);
    }
    // 36 shows that position.
    assert_eq!(b.call(SET_RANDOM), 0);
    assert_eq!((b.control[R0], b.control[R1], b.control[R2]), (0, 0, 1));
}

#[test]
fn number_37_protected() {
    let mut b = bench();
    assert_eq!(b.call(PROTECT), 0);
    for function in [DELETE, MAKE, RENAME, ATTRIBUTES, SEQUENTIAL_WRITE, RANDOM_WRITE, ZERO_FILL_WRITE] {
        refused_on(&mut b, function, "A.TXT", 37);
        refused_on(&mut b, function, "NOFILE", 37);
    }
    assert_eq!(b.on(OPEN, "A.TXT"), 0);
    assert_eq!(b.random(RANDOM_READ, "A.TXT", 2), 0);
    // Until the next log-in.
    assert_eq!(b.log_in(), (0, 6));
    assert_eq!(b.on(DELETE, "A.TXT"), 0);
}
