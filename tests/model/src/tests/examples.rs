//! The paper's "Examples to hold it to", all of them, in the plain way and in
//! the kept way.

use super::*;
use crate::paper::calls::*;
use crate::paper::control::{CR, EX, R0, R2, S2};
use crate::paper::geometry::RECORD;
use crate::paper::lister::listing;
use crate::paper::names::ANY;

const WAYS: [Way; 2] = [Way::Plain, Way::Kept];
const SIGLA: &str = "SIGLA.TXT";

/// V after log-in and make.
fn with_sigla(way: Way) -> Bench {
    let mut v = Bench::closed(1024, 40, 1, way);
    assert_eq!(v.log_in(), (0, 39));
    assert_eq!(v.geometry.slots(), 32);
    assert_eq!(v.on(MAKE, SIGLA), 0);
    v
}

/// V after the writes 0, 20 and 128.
fn with_three_records(way: Way) -> Bench {
    let mut v = with_sigla(way);
    for n in [0, 20, 128] {
        assert_eq!(v.write(SIGLA, n, 0xA0), 0);
    }
    v
}

#[test]
fn the_name_exists() {
    for way in WAYS {
        let mut v = with_sigla(way);
        assert_eq!(v.on(MAKE, SIGLA), 43);
        assert_eq!(v.rename(SIGLA, SIGLA), 43);
    }
}

#[test]
fn write_0_and_20() {
    for way in WAYS {
        let mut v = with_sigla(way);
        assert_eq!(v.write(SIGLA, 0, 0xA0), 0);
        assert_eq!((v.map(0)[0], v.entry(0).rc()), (1, 1));
        assert_eq!(v.volume[1024..1152], [0xA0; RECORD]);
        assert_eq!(v.write(SIGLA, 20, 0xA1), 0);
        assert_eq!((v.map(0)[2], v.entry(0).rc()), (2, 21));
        assert_eq!(v.volume[2560..2688], [0xA1; RECORD]);
    }
}

#[test]
fn read_8_21_16_128() {
    for way in WAYS {
        let mut v = with_sigla(way);
        let old = v.volume[2048..2176].to_vec();
        assert_eq!(v.write(SIGLA, 0, 0xA0), 0);
        assert_eq!(v.write(SIGLA, 20, 0xA1), 0);
        assert_eq!(v.random(RANDOM_READ, SIGLA, 8), 1);
        assert_eq!(v.random(RANDOM_READ, SIGLA, 21), 1);
        assert_eq!(v.random(RANDOM_READ, SIGLA, 16), 0);
        assert_eq!(v.buffer, old);
        assert_eq!(v.random(RANDOM_READ, SIGLA, 128), 4);
    }
}

#[test]
fn write_128_and_size() {
    for way in WAYS {
        let mut v = with_three_records(way);
        let entry = v.entry(1);
        assert_eq!((entry.user(), entry.bytes[12], entry.rc(), v.map(1)[0]), (0, 1, 1, 3));
        assert_eq!(v.on(SIZE, SIGLA), 0);
        assert_eq!(v.control[R0..=R2], [129, 0, 0]);
    }
}

#[test]
fn write_65535_in_a_new_file() {
    for way in WAYS {
        let mut v = Bench::open(1024, 40, 1, way);
        assert_eq!(v.on(MAKE, "FAR"), 0);
        assert_eq!(v.write("FAR", 65535, 1), 0);
        // The made entry is of group 0; record 65,535 has a group of its own.
        let entry = v.entry(1);
        assert_eq!((entry.bytes[12], entry.bytes[14], entry.rc()), (31, 15, 128));
        assert_eq!(v.map(1)[15], 1);
        assert_eq!(v.on(SIZE, "FAR"), 0);
        assert_eq!(v.control[R0..=R2], [0, 0, 1]);
    }
}

#[test]
fn write_200_with_larger_blocks() {
    for way in WAYS {
        let mut v = Bench::open(2048, 40, 1, way);
        assert_eq!(v.on(MAKE, "NEW"), 0);
        assert_eq!(v.write("NEW", 200, 1), 0);
        let entry = v.entry(0);
        assert_eq!((entry.bytes[12], entry.rc(), v.map(0)[12]), (1, 73, 1));
        assert_eq!(v.random(RANDOM_READ, "NEW", 5), 1);
    }
}

/// T 2, D 1: one block for data, and 32 files in 32 slots.
fn with_32_files(way: Way) -> Bench {
    let mut v = Bench::open(1024, 2, 1, way);
    for number in 0..32 {
        assert_eq!(v.on(MAKE, &format!("FILE{}", number)), number % 4);
    }
    v
}

#[test]
fn nothing_left() {
    for way in WAYS {
        let mut v = with_32_files(way);
        assert_eq!(v.write("FILE0", 0, 1), 0);
        // No empty slot and no free block, new group.
        assert_eq!(v.write("FILE0", 128, 1), 5);
        // The second block asked for.
        assert_eq!(v.write("FILE1", 0, 1), 2);
    }
}

#[test]
fn pattern_delete_with_one_read_only_match() {
    for way in WAYS {
        let mut v = with_32_files(way);
        v.control = control_for("FILE7");
        v.control[9] |= 0x80;
        assert_eq!(v.call(ATTRIBUTES), 0);
        let before = v.volume.clone();
        v.control = control_for("FILE");
        v.control[5..9].fill(ANY);
        assert_eq!(v.call(DELETE), 38);
        assert_eq!(v.volume, before);
    }
}

#[test]
fn cr_128_is_taken_and_129_is_40() {
    for way in WAYS {
        let mut v = Bench::open(1024, 40, 1, way);
        assert_eq!(v.on(MAKE, "POS"), 0);
        assert_eq!(v.write("POS", 128, 9), 0);
        assert_eq!(v.sequential(SEQUENTIAL_READ, "POS", 0, 0, 128), 0);
        assert_eq!((v.control[S2], v.control[EX], v.control[CR]), (0, 1, 1));
        assert_eq!(v.sequential(SET_RANDOM, "POS", 15, 31, 128), 0);
        assert_eq!(v.control[R0..=R2], [0, 0, 1]);
        for function in [SEQUENTIAL_READ, SEQUENTIAL_WRITE, SET_RANDOM] {
            assert_eq!(v.sequential(function, "POS", 0, 0, 129), 40);
        }
    }
}

#[test]
fn the_listing() {
    for way in WAYS {
        let mut v = with_three_records(way);
        let paper = "USER NAME TYPE RECORDS BLOCKS\n0 SIGLA   .TXT 129 3\nFREE 36\n";
        assert_eq!(listing(&v.volume), paper);
        assert_eq!(listing(&v.volume[1..]), "REFUSED 33\n");
        v.set_byte(4, 0, 16);
        assert_eq!(listing(&v.volume), "REFUSED 36 4\n");
    }
}
