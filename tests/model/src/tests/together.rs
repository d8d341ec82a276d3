//! Request (ix), "keep a file's blocks together": which free block a write
//! takes, worked out by hand.

use super::*;
use crate::paper::calls::*;
use crate::paper::held::{Held, Holding};

/// B 1,024, T 8, D 1: A (slot 0) has block 3 and B (slot 1) block 4, each in its
/// first place; 1, 2, 5, 6 and 7 are free.
fn shelf(way: Way) -> Bench {
    let mut b = Bench::open(1024, 8, 1, way);
    for (slot, file, block) in [(0, "A", 3), (1, "B", 4)] {
        assert_eq!(b.on(MAKE, file), slot as u32);
        b.set_byte(slot, 15, 8);
        b.set_byte(slot, 16, block);
    }
    assert_eq!(b.log_in(), (0, 5));
    b
}

fn takes(b: &mut Bench, n: u32, slot: usize, map: &[u16]) {
    assert_eq!(b.write("A", n, 1), 0);
    assert_eq!(b.map(slot)[..map.len()], *map, "record {}", n);
}

#[test]
fn above_the_nearest_lower_used_place() {
    for way in [Way::Plain, Way::Kept] {
        let mut b = shelf(way);
        // A gap below: place 0 is the nearest one, 4 is held, 1 is passed over.
        takes(&mut b, 24, 0, &[3, 0, 0, 5]);
        // Out of order: block 5 of place 3 plays no part.
        takes(&mut b, 8, 0, &[3, 6, 0, 5]);
        takes(&mut b, 16, 0, &[3, 6, 7, 5]);
        // 6 and 7 are held, so none is free above 5.
        takes(&mut b, 32, 0, &[3, 6, 7, 5, 1]);
        // A new entry's first place.
        takes(&mut b, 128, 2, &[2, 0]);
        assert_eq!(b.write("A", 40, 1), 2);
        assert_eq!(b.on(DELETE, "B"), 0);
        assert_eq!(b.random(ZERO_FILL_WRITE, "A", 136), 0);
        assert_eq!(b.map(2)[..3], [2, 4, 0]);
    }
}

#[test]
fn a_first_place_takes_the_lowest() {
    let mut b = shelf(Way::Kept);
    b.set_byte(0, 16, 0);
    b.set_byte(0, 18, 3);
    assert_eq!(b.log_in(), (0, 5));
    takes(&mut b, 0, 0, &[1, 0, 3]);
    assert_eq!(b.sequential(SEQUENTIAL_WRITE, "A", 0, 0, 8), 0);
    assert_eq!(b.map(0)[..4], [1, 2, 3, 0]);
}

#[test]
fn numbers_that_only_an_altered_volume_has() {
    // D 2, T 8, nothing held: all free blocks are above 1, none above 8 or 255.
    for (number, block) in [(1, 2), (8, 2), (255, 2), (3, 4), (7, 2)] {
        let mut b = Bench::open(1024, 8, 2, Way::Kept);
        assert_eq!(b.on(MAKE, "A"), 0);
        b.set_byte(0, 16, number as u8);
        takes(&mut b, 8, 0, &[number, block]);
        let held: Held = [block].into_iter().collect();
        assert_eq!(b.state().holding, Holding::Kept(held));
    }
}
