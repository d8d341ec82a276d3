//! The refusals 4, 1, 41, 5 and 2: the record.

use super::*;
use crate::paper::calls::*;
use crate::paper::control::{CR, EX, R0};
use crate::paper::held::{Held, Holding};

#[test]
fn numbers_4_and_1() {
    let mut b = bench();
    b.random(RANDOM_READ, "A.TXT", 128);
    refused(&mut b, RANDOM_READ, 0, 4);
    b.control = control_for("A.TXT");
    b.control[EX] = 1;
    refused(&mut b, SEQUENTIAL_READ, 0, 1);
    b.control[EX] = 0;
    b.control[CR] = 3;
    refused(&mut b, SEQUENTIAL_READ, 0, 1);
    b.control[CR] = 128;
    refused(&mut b, SEQUENTIAL_READ, 0, 1);
    b.control[R0] = 3;
    refused(&mut b, RANDOM_READ, 0, 1);
    b.control[R0] = 8;
    refused(&mut b, RANDOM_READ, 0, 1);
}

#[test]
fn number_1_where_the_count_is_enough_but_the_place_is_0() {
    let mut b = bench();
    assert_eq!(b.write("A.TXT", 127, 1), 0);
    for n in [8, 16, 119] {
        b.random(RANDOM_READ, "A.TXT", n);
        refused(&mut b, RANDOM_READ, 0, 1);
    }
    assert_eq!(b.random(RANDOM_READ, "A.TXT", 120), 0);
}

#[test]
fn number_41_places_outside() {
    // D 2, T 8: 1 is below D, 8 is beyond T-1.
    for number in [1, 8, 255] {
        let mut b = Bench::open(1024, 8, 2, Way::Kept);
        b.on(MAKE, "A.TXT");
        b.set_byte(0, 15, 1);
        b.set_byte(0, 16, number);
        b.control = control_for("A.TXT");
        for function in [SEQUENTIAL_READ, RANDOM_READ, SEQUENTIAL_WRITE, RANDOM_WRITE, ZERO_FILL_WRITE] {
            refused(&mut b, function, 0, 41);
        }
        // Beyond the count: a read answers 1, a write still 41.
        b.control[CR] = 1;
        b.control[R0] = 1;
        refused(&mut b, SEQUENTIAL_READ, 0, 1);
        refused(&mut b, RANDOM_READ, 0, 1);
        refused(&mut b, SEQUENTIAL_WRITE, 0, 41);
        refused(&mut b, RANDOM_WRITE, 0, 41);
        // Only n's own place is tested.
        assert_eq!(b.write("A.TXT", 8, 1), 0);
        // Delete passes such numbers over.
        assert_eq!(b.on(DELETE, "A.TXT"), 0);
        assert_eq!(b.state().holding, Holding::Kept(Held::new()));
    }
}

#[test]
fn numbers_5_and_2() {
    let mut b = Bench::open(1024, 2, 1, Way::Kept);
    for number in 0..31 {
        b.on(MAKE, &format!("F{}", number));
    }
    // One empty slot, one free block: the new group takes both.
    assert_eq!(b.write("F0", 128, 1), 0);
    for function in [RANDOM_WRITE, ZERO_FILL_WRITE] {
        b.control = control_for("F1");
        refused(&mut b, function, 0, 2);
        b.control[R0] = 128;
        refused(&mut b, function, 0, 5);
    }
    b.control = control_for("F1");
    refused(&mut b, SEQUENTIAL_WRITE, 0, 2);
    b.control[CR] = 128;
    refused(&mut b, SEQUENTIAL_WRITE, 0, 5);
    // No block is needed for a place that has one.
    assert_eq!(b.write("F0", 129, 1), 0);
}

#[test]
fn a_refused_write_takes_no_block_and_makes_no_entry() {
    // An empty slot but no free block: 2, and no entry is left behind.
    let mut b = Bench::open(1024, 2, 1, Way::Kept);
    b.on(MAKE, "F");
    assert_eq!(b.write("F", 0, 1), 0);
    b.control = control_for("F");
    b.control[R0] = 128;
    refused(&mut b, RANDOM_WRITE, 0, 2);
}
