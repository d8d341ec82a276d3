//! The drive's bytes, log-in and calls at the seam.

use super::*;
use crate::choose::random::Random;
use crate::doors::drive_bytes::{closed, decode, encode};
use crate::doors::seam::{call, log_in, Memory};
use crate::paper::calls::is_served;
use crate::paper::control::EX;
use crate::paper::geometry::Geometry;
use crate::paper::names::ANY;

const GEOMETRY: Geometry = Geometry { block_bytes: 1024, blocks: 8, directory_blocks: 1, placing: 0 };

/// The bench's volume, with 64 bytes that are no state.
fn memory() -> Memory {
    Memory { drive: vec![0xAA; 64], volume: bench().volume, ..Memory::default() }
}

/// The same after log-in.
fn logged_in() -> Memory {
    let mut memory = memory();
    assert_eq!(log_in(GEOMETRY, &mut memory), 6 << 16);
    memory
}

/// The drive after log-in: B 1,024, T 8, D 1, block 1 held.
fn after_log_in() -> [u8; 64] {
    let mut drive = [0; 64];
    drive[1] = 4;
    drive[2] = 8;
    drive[4] = 1;
    drive[32] = 2;
    drive
}

#[test]
fn the_drives_bytes() {
    let mut memory = logged_in();
    let mut paper = after_log_in();
    assert_eq!(memory.drive, paper);
    // A search that hits slot 0, user 3, protected.
    memory.control = control_for("A.TXT");
    memory.control[2] = 0xBF;
    memory.control[EX] = 63;
    memory.buffer = vec![0; 128];
    assert_eq!(call(17, 0, &mut memory), 0);
    assert_eq!(call(32, 3, &mut memory), 0);
    assert_eq!(call(28, 0, &mut memory), 0);
    paper[6] = 3;
    paper[7] = 1;
    paper[8] = 1;
    paper[12..23].copy_from_slice(b"A\xBF      TXT");
    paper[23] = 63;
    assert_eq!(memory.drive, paper);
    // Of the other kind, with the bytes as they were lent.
    memory.control = vec![0xC3; 36];
    memory.control[0] = ANY;
    assert_eq!(call(17, 0, &mut memory), 0);
    paper[8] = 2;
    paper[9] = 3;
    paper[12..24].fill(0xC3);
    assert_eq!(memory.drive, paper);
    assert_eq!(call(18, 0, &mut memory), 1);
    paper[10] = 1;
    assert_eq!(memory.drive, paper);
}

#[test]
fn a_refused_log_in_leaves_the_closed_value() {
    for (geometry, answer) in [
        (Geometry { blocks: 9, ..GEOMETRY }, 33),
        (Geometry { block_bytes: 1024 + 65536, ..GEOMETRY }, 32),
        (Geometry { blocks: 0, ..GEOMETRY }, 32),
        (Geometry { directory_blocks: 0, ..GEOMETRY }, 32),
    ] {
        let mut memory = memory();
        assert_eq!(log_in(geometry, &mut memory), answer);
        assert_eq!(memory.drive, closed(8));
    }
    let mut memory = memory();
    memory.volume[3 * 32] = 0x20;
    assert_eq!(log_in(GEOMETRY, &mut memory), 36 + (3 << 16));
    assert_eq!(memory.drive, closed(8));
}

#[test]
fn log_in_with_a_drive_of_another_length() {
    for length in [0, 1, 63, 65, 128] {
        let mut memory = Memory { drive: vec![0x55; length], ..memory() };
        let before = memory.clone();
        assert_eq!(log_in(GEOMETRY, &mut memory), 32);
        assert_eq!(memory, before);
    }
}

#[test]
fn log_in_anew_with_the_drives_own_geometry() {
    for function in [13, 37] {
        let mut memory = logged_in();
        assert_eq!(call(28, 0, &mut memory), 0);
        assert_eq!(call(function, 0, &mut memory), 6 << 16);
        assert_eq!(memory.drive, after_log_in());
        memory.volume[5 * 32] = 0x20;
        assert_eq!(call(function, 0, &mut memory), 36 + (5 << 16));
        assert_eq!(memory.drive, closed(8));
        // Closed: not even log-in.
        assert_eq!(call(function, 0, &mut memory), 32);
        let mut memory = logged_in();
        memory.volume.pop();
        assert_eq!(call(function, 0, &mut memory), 33);
        assert_eq!(memory.drive, closed(8));
    }
}

#[test]
fn numbers_that_are_not_served() {
    let mut memory = logged_in();
    memory.volume.clear();
    let before = memory.clone();
    for function in (0..=255).filter(|&function| !is_served(function)) {
        assert_eq!(call(function, 0, &mut memory), 31);
        assert_eq!(memory, before);
    }
}

#[test]
fn a_closed_drive_is_32_for_every_number() {
    let mut malformed = after_log_in();
    malformed[25] = 1;
    for drive in [closed(8), malformed.to_vec(), vec![0; 63], after_log_in()[..63].to_vec()] {
        let mut memory = Memory { drive, ..memory() };
        let before = memory.clone();
        for function in 0..=255 {
            assert_eq!(call(function, 0, &mut memory), 32);
            assert_eq!(memory, before);
        }
    }
}

#[test]
fn drive_bytes_that_count_as_closed() {
    assert!(decode(&after_log_in()).is_some());
    #[rustfmt::skip]
    let wrong = [
        (0, 1), (1, 6), (2, 1), (3, 2), (4, 8), (4, 0), (5, 1), (6, 16), (7, 2), (8, 1), (8, 3),
        (9, 1), (12, 1), (23, 1), (24, 1), (24, 2), (25, 1), (31, 128),
    ];
    for (at, value) in wrong {
        let mut bytes = after_log_in();
        bytes[at] = value;
        assert_eq!(decode(&bytes), None, "byte {} value {}", at, value);
    }
    // Held bits never close it, nor does a kept search of the dr 3FH kind.
    let mut bytes = after_log_in();
    bytes[32..].fill(0xFF);
    bytes[8] = 2;
    bytes[10] = 31;
    bytes[12..24].fill(0xFF);
    assert!(decode(&bytes).is_some());
}

#[test]
fn decoding_and_encoding() {
    let mut r = Random::new(1, 1);
    let mut open = 0;
    for _ in 0..20000 {
        let mut bytes = r.bytes(64);
        bytes[0..6].copy_from_slice(&[0, 8, 9, 0, 2, 0]);
        bytes[6] = r.below(17) as u8;
        bytes[7] = r.below(3) as u8;
        bytes[8] = r.below(4) as u8;
        bytes[9] = r.below(17) as u8;
        bytes[11] = 0;
        if bytes[8] == 0 {
            bytes[9..24].fill(0);
        }
        if bytes[8] == 1 && r.percent(80) {
            bytes[12..24].fill(ANY);
        }
        bytes[24..32].fill(0);
        let drive = decode(&bytes);
        if let Some(state) = &drive {
            open += 1;
            assert_eq!(encode(state), bytes);
            assert_eq!(decode(&encode(state)), drive);
        }
    }
    assert!(open > 3000);
}
