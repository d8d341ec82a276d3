//! What reads and writes leave when they succeed: in the control block, the
//! directory and the state.

use super::*;
use crate::paper::calls::*;
use crate::paper::control::{CR, EX, R0, RC};
use crate::paper::geometry::RECORD;
use crate::paper::held::{Held, Holding};

#[test]
fn the_two_ways_part_on_an_altered_volume() {
    // Two entries share block 1: deleting one frees it for the kept way,
    // while the directory still names it.
    for (way, block) in [(Way::Plain, 2), (Way::Kept, 1)] {
        let mut b = Bench::open(1024, 4, 1, way);
        b.on(MAKE, "A");
        b.on(MAKE, "B");
        assert_eq!(b.write("A", 0, 1), 0);
        b.set_byte(1, 16, 1);
        assert_eq!(b.on(DELETE, "A"), 0);
        assert_eq!(b.write("B", 128, 1), 0);
        assert_eq!(b.map(0)[0], block);
    }
}

#[test]
fn sequential_calls_cross_an_extent() {
    for (block_bytes, slot) in [(1024, 1), (2048, 0)] {
        let mut b = Bench::open(block_bytes, 40, 1, Way::Plain);
        b.on(MAKE, "RUN");
        b.control = control_for("RUN");
        for n in 0..130u32 {
            b.buffer = vec![n as u8; RECORD];
            assert_eq!(b.call(SEQUENTIAL_WRITE), 0);
            assert_eq!(b.control[EX] as u32, n / 128);
            assert_eq!(b.control[CR] as u32, n % 128 + 1);
            assert_eq!(b.control[RC] as u32, n % 128 + 1);
        }
        assert_eq!((b.entry(slot).bytes[12], b.entry(slot).rc()), (1, 2));
        b.control = control_for("RUN");
        for n in 0..130u32 {
            assert_eq!(b.call(SEQUENTIAL_READ), 0);
            assert_eq!(b.buffer, vec![n as u8; RECORD]);
        }
        refused(&mut b, SEQUENTIAL_READ, 0, 1);
        assert_eq!(b.call(SET_RANDOM), 0);
        assert_eq!(b.control[R0], 130);
    }
}

#[test]
fn the_count_in_the_directory() {
    let mut b = Bench::open(2048, 8, 1, Way::Kept);
    b.on(MAKE, "C");
    assert_eq!(b.write("C", 9, 1), 0);
    assert_eq!((b.entry(0).bytes[12], b.entry(0).rc()), (0, 10));
    assert_eq!(b.write("C", 3, 1), 0);
    assert_eq!((b.entry(0).bytes[12], b.entry(0).rc()), (0, 10));
    // A later extent: the earlier one counts 128.
    assert_eq!(b.write("C", 128, 1), 0);
    assert_eq!((b.entry(0).bytes[12], b.entry(0).rc()), (1, 1));
    assert_eq!(b.random(RANDOM_READ, "C", 15), 0);
    assert_eq!(b.control[RC], 128);
    // A record of the earlier extent: nothing but the map changes.
    assert_eq!(b.write("C", 100, 1), 0);
    assert_eq!((b.entry(0).bytes[12], b.entry(0).rc()), (1, 1));
    assert_eq!((b.control[EX], b.control[RC]), (0, 128));
    // A stored 200 stays 200 and counts 128.
    b.set_byte(0, 15, 200);
    assert_eq!(b.write("C", 130, 1), 0);
    assert_eq!(b.entry(0).rc(), 200);
    assert_eq!(b.control[RC], 128);
}

#[test]
fn a_new_group_copies_the_lowest_entry() {
    let mut b = bench();
    b.set_byte(0, 2, 0xA0);
    b.set_byte(0, 10, b'X' | 0x80);
    assert_eq!(b.write("A.TXT", 65535, 1), 0);
    let mut entry = [0; 32];
    entry[0..12].copy_from_slice(&b.entry(0).bytes[0..12]);
    entry[12] = 31;
    entry[14] = 15;
    entry[15] = 128;
    entry[31] = 2;
    assert_eq!(b.entry(1).bytes, entry);
    assert_eq!(b.control[CR], 127);
}

#[test]
fn the_state_decides_what_is_free() {
    let mut b = bench();
    // All held: none is free.
    b.state().holding = Holding::Kept((0..=255).collect());
    b.control = control_for("A.TXT");
    b.control[R0] = 8;
    refused(&mut b, RANDOM_WRITE, 0, 2);
    // All held but block 1: it is given out again.
    b.state().holding = Holding::Kept((0..=255).filter(|&number| number != 1).collect());
    assert_eq!(b.call(RANDOM_WRITE), 0);
    assert_eq!(b.map(0)[..2], [1, 1]);
    // A place whose block is not held is written and stays unheld.
    b.state().holding = Holding::Kept(Held::new());
    assert_eq!(b.write("A.TXT", 0, 1), 0);
    assert_eq!(b.state().holding, Holding::Kept(Held::new()));
}

#[test]
fn function_40_clears_a_block_that_it_gives() {
    // Block 1 has a deleted file's records 1, 2 and 3; 40 gives it to record 5 of another file.
    for (block_bytes, record) in [(1024, 5), (2048, 5), (4096, 5), (1024, 133)] {
        let mut b = Bench::open(block_bytes, 8, 1, Way::Kept);
        b.on(MAKE, "OLD");
        for n in 1..4 {
            assert_eq!(b.write("OLD", n, 0xAA), 0);
        }
        b.on(DELETE, "OLD");
        b.on(MAKE, "NEW");
        let others = b.volume[2 * block_bytes as usize..].to_vec();
        b.buffer = vec![7; RECORD];
        assert_eq!(b.random(ZERO_FILL_WRITE, "NEW", record), 0);
        assert_eq!(b.buffer, vec![7; RECORD]);
        let mut block = vec![0; block_bytes as usize];
        let begin = record as usize * RECORD % block_bytes as usize;
        block[begin..begin + RECORD].fill(7);
        assert_eq!(b.volume[block_bytes as usize..][..block_bytes as usize], block);
        assert_eq!(b.volume[2 * block_bytes as usize..], others);
        assert_eq!(b.state().holding, Holding::Kept([1].into_iter().collect()));
        // The records before it count as present and are zeros; the one behind it does not.
        assert_eq!(b.random(RANDOM_READ, "NEW", record - 1), 0);
        assert_eq!(b.buffer, vec![0; RECORD]);
        assert_eq!(b.random(RANDOM_READ, "NEW", record + 1), 1);
    }
}

#[test]
fn function_40_leaves_the_rest_of_a_block_that_was_given_before() {
    let mut b = bench();
    let before = b.volume.clone();
    b.buffer = vec![9; RECORD];
    assert_eq!(b.random(ZERO_FILL_WRITE, "A.TXT", 1), 0);
    let mut after = before;
    after[1024 + RECORD..1024 + 2 * RECORD].fill(9);
    assert_eq!(b.volume, after);
}

#[test]
fn function_34_clears_nothing() {
    let mut b = bench();
    b.on(DELETE, "A.TXT");
    b.on(MAKE, "B.TXT");
    let mut block = b.volume[1024..2048].to_vec();
    assert_eq!(b.write("B.TXT", 7, 5), 0);
    block[7 * RECORD..].fill(5);
    assert_eq!(b.volume[1024..2048], block);
}
