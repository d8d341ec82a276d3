//! Several records a call: k single calls in order, up to the first that is
//! refused.

use super::*;
use crate::paper::calls::*;
use crate::paper::control::{CR, EX};
use crate::paper::geometry::RECORD;

/// Records of one value each.
fn records(values: &[u8]) -> Vec<u8> {
    values.iter().flat_map(|&value| [value; RECORD]).collect()
}

#[test]
fn three_written_and_read_back() {
    let mut b = bench();
    b.on(MAKE, "NEW");
    b.control = control_for("NEW");
    b.buffer = records(&[10, 11, 12]);
    assert_eq!(b.answer(WRITE_SEVERAL, 3), (0, 3));
    assert_eq!((b.control[CR], b.entry(1).rc(), b.map(1)[0]), (3, 3, 2));
    assert_eq!(b.buffer, records(&[10, 11, 12]));
    b.control = control_for("NEW");
    b.buffer = records(&[0, 0, 0]);
    assert_eq!(b.answer(READ_SEVERAL, 3), (0, 3));
    assert_eq!(b.buffer, records(&[10, 11, 12]));
    assert_eq!(b.control[CR], 3);
}

#[test]
fn reading_past_the_end_stops_with_1() {
    let mut b = bench();
    b.control = control_for("A.TXT");
    b.control[CR] = 1;
    b.buffer = records(&[90, 91, 92, 93]);
    assert_eq!(b.answer(READ_SEVERAL, 4), (1, 2));
    // Records 1 and 2 are there; pieces from the stop on keep their bytes.
    assert_eq!(b.buffer, records(&[1, 2, 92, 93]));
    assert_eq!(b.control[CR], 3);
}

#[test]
fn a_full_disk_stops_a_write_with_2() {
    let mut b = Bench::open(1024, 2, 1, Way::Kept);
    b.on(MAKE, "A");
    b.control = control_for("A");
    b.control[CR] = 6;
    b.buffer = records(&[6, 7, 8, 9]);
    assert_eq!(b.answer(WRITE_SEVERAL, 4), (2, 2));
    assert_eq!((b.control[CR], b.entry(0).rc()), (8, 8));
    // What was done stays done.
    assert_eq!(b.random(RANDOM_READ, "A", 7), 35);
    b.buffer = records(&[0]);
    assert_eq!(b.random(RANDOM_READ, "A", 7), 0);
    assert_eq!(b.buffer, records(&[7]));
}

#[test]
fn it_equals_single_calls() {
    // Over the border of an extent, in both ways.
    for way in [Way::Plain, Way::Kept] {
        let values: Vec<u8> = (100..116).collect();
        let mut several = Bench::open(1024, 40, 1, way);
        let mut singles = Bench::open(1024, 40, 1, way);
        for b in [&mut several, &mut singles] {
            b.on(MAKE, "A");
            b.control = control_for("A");
            b.control[CR] = 120;
        }
        several.buffer = records(&values);
        assert_eq!(several.answer(WRITE_SEVERAL, 16), (0, 16));
        for &value in &values {
            singles.buffer = records(&[value]);
            assert_eq!(singles.call(SEQUENTIAL_WRITE), 0);
        }
        assert!(several.volume == singles.volume && several.drive == singles.drive);
        assert_eq!(several.control, singles.control);
        assert_eq!((several.control[EX], several.control[CR]), (1, 8));
    }
}

#[test]
fn number_46_before_35() {
    let mut b = bench();
    for function in [READ_SEVERAL, WRITE_SEVERAL] {
        for k in [0, 17, 255] {
            b.control = vec![0xFF; 36];
            b.buffer = vec![7; 5];
            refused(&mut b, function, k, 46);
            // 33 and 34 come before it.
            b.control.pop();
            refused(&mut b, function, k, 34);
        }
        for k in [1, 2, 16] {
            for length in [0, 128 * k as usize - 1, 128 * k as usize + 1] {
                b.control = vec![0xFF; 36];
                b.buffer = vec![7; length];
                refused(&mut b, function, k, 35);
            }
        }
        // Then what the single call tests.
        b.control = vec![0xFF; 36];
        b.buffer = vec![7; 256];
        refused(&mut b, function, 2, 42);
        b.control[0] = 0;
        refused(&mut b, function, 2, 39);
    }
}
