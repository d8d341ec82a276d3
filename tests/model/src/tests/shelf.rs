//! What the shelf holds: hand-worked figures.

use super::*;
use crate::doors::shelf::shelf;
use crate::paper::floppy::{lay_back, IMAGE_BYTES};
use crate::paper::geometry::{Geometry, FLOPPY};
use crate::paper::shelf::{put, Shelf, MOST_VOLUMES};

const GEOMETRY: Geometry = Geometry { block_bytes: 1024, blocks: 8, directory_blocks: 1, placing: 0 };

#[test]
fn the_benchs_volume() {
    // A.TXT has records 0 to 2 in block 1 of seven data blocks.
    let mut shelf = Shelf::default();
    assert_eq!(put(&mut shelf, GEOMETRY, &bench().volume), (0, 0));
    assert_eq!(shelf, [0, 1, 1, 3, 1, 6, 5, 1]);
    assert_eq!(put(&mut shelf, GEOMETRY, &[]), (0, 33));
    assert_eq!(shelf, [1, 1, 1, 3, 1, 6, 5, 2]);
}

#[test]
fn gaps_are_no_records() {
    let mut b = bench();
    // Record 130: a second entry, block 2; record 20 leaves a gap at place 1.
    assert_eq!(b.write("A.TXT", 20, 1), 0);
    assert_eq!(b.write("A.TXT", 130, 1), 0);
    let mut shelf = Shelf::default();
    assert_eq!(put(&mut shelf, GEOMETRY, &b.volume), (0, 0));
    // Places 0 and 2 of the first entry, rc 21: 8 and 5; of the second rc 3.
    assert_eq!(shelf, [0, 1, 2, 8 + 5 + 3, 3, 4, 24 - 16, 1]);
}

#[test]
fn a_hard_disk() {
    let mut b = Bench::open(2048, 300, 1, Way::Kept);
    assert_eq!(b.on(MAKE, "A.TXT"), 0);
    // Places 0 and 2 of the first of two entries, rc 41, and place 0 of the second, rc 1.
    for n in [0, 40, 128] {
        assert_eq!(b.write("A.TXT", n, 1), 0);
    }
    let mut shelf = Shelf::default();
    assert_eq!(put(&mut shelf, b.geometry, &b.volume), (0, 0));
    assert_eq!(shelf, [0, 1, 2, 16 + 9 + 1, 3, 296, 48 - 26, 1]);
}

#[test]
fn a_floppy_and_its_unskewed_volume() {
    let mut b = Bench::open(1024, 243, 2, Way::Kept);
    assert_eq!(b.on(MAKE, "A.TXT"), 0);
    for n in [0, 20, 128] {
        assert_eq!(b.write("A.TXT", n, 1), 0);
    }
    let mut image = vec![0xE5; IMAGE_BYTES];
    lay_back(&mut image, &b.volume);
    let mut shelf = Shelf::default();
    assert_eq!(put(&mut shelf, FLOPPY, &image), (0, 0));
    assert_eq!(shelf, [0, 1, 2, 8 + 5 + 1, 3, 238, 24 - 14, 1]);
    assert_eq!(put(&mut shelf, FLOPPY.straight(), &b.volume), (0, 0));
    assert_eq!(shelf, [0, 2, 4, 28, 6, 476, 20, 2]);
    assert_eq!(put(&mut shelf, FLOPPY, &b.volume), (0, 33));
    assert_eq!(put(&mut shelf, FLOPPY.straight(), &image), (0, 33));
}

#[test]
fn one_too_many_and_outside() {
    let volume = bench().volume;
    let mut full = Shelf::default();
    full[7] = MOST_VOLUMES;
    let before = full;
    assert_eq!(put(&mut full, GEOMETRY, &volume), (47, 0));
    assert_eq!(full, before);
    full[3] = 1 << 48;
    assert_eq!(put(&mut full, GEOMETRY, &volume), (32, 0));
}

#[test]
fn the_shelfs_bytes() {
    let mut bytes = vec![0; 64];
    assert_eq!(shelf(GEOMETRY, &bench().volume, &mut bytes), 0);
    let mut paper = [0; 64];
    (paper[8], paper[16], paper[24], paper[32], paper[40], paper[48], paper[56]) = (1, 1, 3, 1, 6, 5, 1);
    assert_eq!(bytes, paper);
    let mut short = vec![0; 63];
    assert_eq!(shelf(GEOMETRY, &bench().volume, &mut short), 32);
    assert_eq!(short, vec![0; 63]);
}
