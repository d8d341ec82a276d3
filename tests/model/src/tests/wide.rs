//! Request (xi), "the hard disk of the second machine": volumes of more than 256
//! blocks, worked out by hand.

use super::*;
use crate::doors::drive_bytes::{closed, decode, encode};
use crate::doors::replay::expected;
use crate::doors::script::{Call, Script};
use crate::doors::seam::{self, Memory};
use crate::doors::{cut, telling};
use crate::paper::bad_slots::first_fault;
use crate::paper::calls::*;
use crate::paper::control::{show_record, CR, EX, R0, R2, RC, S2};
use crate::paper::geometry::Geometry;
use crate::paper::held::{Held, Holding};
use crate::paper::stores::Asked;

/// B 2,048, T 300, D 1: eight places, one extent an entry, 16 records a block, 64
/// slots.
const GEOMETRY: Geometry = Geometry { block_bytes: 2048, blocks: 300, directory_blocks: 1, placing: 0 };

fn disk() -> Bench {
    Bench::open(2048, 300, 1, Way::Kept)
}

/// The blocks D to this one, less one, are held.
fn hold_below(b: &mut Bench, number: u16) {
    let held: Held = (1..number).collect();
    b.state().holding = Holding::Kept(held);
}

#[test]
fn geometries() {
    for (bytes, blocks, directory) in [
        (2048, 257, 1),
        (2048, 4096, 16),
        (2048, 4095, 1),
        (4096, 257, 16),
        (4096, 2048, 16),
        (4096, 2047, 1),
        (1024, 256, 1),
    ] {
        assert!(Geometry::new(bytes, blocks, directory).within_rules(), "{} {} {}", bytes, blocks, directory);
    }
    for (bytes, blocks, directory) in [
        (1024, 257, 1),
        (1024, 4096, 1),
        (2048, 4097, 1),
        (4096, 2049, 1),
        (4096, 4096, 1),
        (8192, 512, 1),
        (2048, 257, 0),
        (2048, 257, 17),
        (2048, 65536 + 8, 1),
    ] {
        let geometry = Geometry::new(bytes, blocks, directory);
        assert!(!geometry.within_rules(), "{} {} {}", bytes, blocks, directory);
        assert_eq!(seam::log_in(geometry, &mut Memory { drive: closed(blocks), ..Memory::default() }), 32);
    }
    let mut b = Bench::closed(4096, 257, 16, Way::Plain);
    assert_eq!(b.log_in(), (0, 241));
    assert_eq!((b.geometry.slots(), b.geometry.places(), b.geometry.extents_an_entry()), (2048, 8, 2));
    // One block fewer, and an entry has sixteen numbers and four extents.
    let narrow = Geometry::new(4096, 256, 16);
    assert_eq!((narrow.places(), narrow.extents_an_entry()), (16, 4));
}

#[test]
fn a_number_of_two_bytes_low_first() {
    let mut b = disk();
    assert_eq!(b.on(MAKE, "A"), 0);
    hold_below(&mut b, 256);
    assert_eq!(b.write("A", 3, 7), 0);
    assert_eq!(b.entry(0).bytes[15..20], [4, 0, 1, 0, 0]);
    assert_eq!(b.control[RC..20], [4, 0, 1, 0, 0]);
    assert_eq!(b.volume[256 * 2048 + 3 * 128..][..128], [7; 128]);
    // Record 16 is in the next place, bytes 18 and 19.
    assert_eq!(b.write("A", 16, 8), 0);
    assert_eq!(b.entry(0).bytes[16..22], [0, 1, 1, 1, 0, 0]);
    assert_eq!(b.volume[257 * 2048..][..128], [8; 128]);
    assert_eq!(b.random(RANDOM_READ, "A", 16), 0);
    assert_eq!(b.buffer, [8; 128]);
    // Place 1 is in the middle of the bytes of a narrow map, place 2 is not used.
    b.random(RANDOM_READ, "A", 32);
    refused(&mut b, RANDOM_READ, 0, 1);
    assert_eq!(b.log_in(), (0, 297));
    let held: Held = [256, 257].into_iter().collect();
    assert_eq!(b.state().holding, Holding::Kept(held));
    assert_eq!(b.on(DELETE, "A"), 0);
    assert_eq!(b.state().holding, Holding::Kept(Held::new()));
}

#[test]
fn the_eighth_place_and_the_next_entry() {
    let mut b = disk();
    assert_eq!(b.on(MAKE, "A"), 0);
    assert_eq!(b.write("A", 127, 1), 0);
    assert_eq!((b.entry(0).bytes[12], b.entry(0).rc(), &b.entry(0).bytes[28..]), (0, 128, &[0, 0, 1, 0][..]));
    // X is 1: extent 1 is another group.
    assert_eq!(b.write("A", 128, 1), 0);
    assert_eq!((b.entry(1).bytes[12], b.entry(1).rc(), &b.entry(1).bytes[16..20]), (1, 1, &[2, 0, 0, 0][..]));
    let mut b = Bench::open(4096, 300, 1, Way::Kept);
    assert_eq!(b.on(MAKE, "A"), 0);
    assert_eq!(b.write("A", 200, 1), 0);
    assert_eq!((b.entry(0).bytes[12], b.entry(0).rc(), b.map(0)[6]), (1, 73, 1));
    assert_eq!(b.write("A", 255, 1), 0);
    assert_eq!((b.entry(0).bytes[12], b.entry(0).rc(), b.map(0)[7]), (1, 128, 2));
    assert_eq!(b.write("A", 256, 1), 0);
    assert_eq!((b.entry(1).bytes[12], b.entry(1).rc(), b.map(1)[0]), (2, 1, 3));
    assert_eq!(b.on(SIZE, "A"), 0);
    assert_eq!(b.control[R0..=R2], [1, 1, 0]);
    for (ex, count) in [(0, 128), (1, 128), (2, 1), (3, 0)] {
        b.control = control_for("A");
        b.control[EX] = ex;
        assert_eq!(b.call(OPEN), ex as u32 / 2);
        assert_eq!((b.control[S2], b.control[RC]), (0, count));
    }
}

#[test]
fn the_last_record() {
    for bytes in [2048, 4096] {
        let mut b = Bench::open(bytes, 257, 1, Way::Plain);
        assert_eq!(b.on(MAKE, "FAR"), 0);
        assert_eq!(b.write("FAR", 65535, 1), 0);
        let entry = b.entry(1);
        assert_eq!((entry.bytes[12], entry.bytes[14], entry.rc()), (31, 15, 128));
        assert_eq!(b.map(1)[..], [0, 0, 0, 0, 0, 0, 0, 1]);
    }
}

#[test]
fn blocks_above_the_nearest_lower_one() {
    let mut b = disk();
    assert_eq!(b.on(MAKE, "A"), 0);
    hold_below(&mut b, 255);
    for n in [0, 16, 32] {
        assert_eq!(b.write("A", n, 1), 0);
    }
    assert_eq!(b.map(0)[..4], [255, 256, 257, 0]);
    // Block 9 is free again; the next ones above 257 and 255 are 258 and 259.
    if let Holding::Kept(held) = &mut b.state().holding {
        held.remove(&9);
    }
    assert_eq!(b.write("A", 48, 1), 0);
    assert_eq!(b.map(0)[3], 258);
    b.set_byte(0, 18, 0);
    b.set_byte(0, 19, 0);
    assert_eq!(b.write("A", 16, 1), 0);
    assert_eq!(b.map(0)[1], 259);
    // None is free above 299.
    b.set_byte(0, 24, 43);
    b.set_byte(0, 25, 1);
    assert_eq!(b.write("A", 80, 1), 0);
    assert_eq!(b.map(0)[5], 9);
}

/// Slot 0 of A has the numbers 5 and 261, slot 5 of B these bytes of a map.
fn with_map(bytes: &[(usize, u8)]) -> Bench {
    let mut b = Bench::closed(2048, 300, 2, Way::Kept);
    for (slot, file) in [(0, "A"), (5, "B")] {
        b.volume[32 * slot..32 * slot + 32].fill(0);
        b.volume[32 * slot + 1..32 * slot + 12].copy_from_slice(&name(file));
    }
    b.volume[16..20].copy_from_slice(&[5, 0, 5, 1]);
    for (at, byte) in bytes {
        b.set_byte(5, *at, *byte);
    }
    b
}

#[test]
fn inspection_of_wide_numbers() {
    // Numbers 6, 256, 299 and 257; the halves of others' numbers count for nothing.
    let good: [&[(usize, u8)]; 5] = [
        &[(16, 6)],
        &[(17, 1)],
        &[(30, 43), (31, 1)],
        &[(16, 1), (17, 1), (30, 6)],
        &[(16, 6), (18, 6), (19, 1)],
    ];
    for bytes in good {
        let mut b = with_map(bytes);
        assert_eq!(b.log_in().0, 0, "{:?}", bytes);
    }
    // The number, the rule, the place and the other slot.
    let bad: [(&[(usize, u8)], u16, u8, usize, Option<usize>); 8] = [
        (&[(30, 44), (31, 1)], 300, 8, 7, None),
        (&[(18, 1)], 1, 8, 1, None),
        (&[(17, 0x80)], 0x8000, 8, 0, None),
        (&[(16, 6), (17, 0x10)], 4102, 8, 0, None),
        (&[(17, 1), (31, 1)], 256, 9, 7, None),
        (&[(16, 6), (17, 1), (18, 6), (19, 1)], 262, 9, 1, None),
        (&[(20, 5)], 5, 10, 2, Some(0)),
        (&[(16, 6), (30, 5), (31, 1)], 261, 10, 7, Some(0)),
    ];
    for (bytes, number, rule, place, other) in bad {
        let mut b = with_map(bytes);
        assert_eq!(b.log_in(), (36, 5), "{:?}", bytes);
        let fault = first_fault(&b.geometry, &b.volume, 5).expect("a fault");
        assert_eq!((fault.number, fault.rule, fault.place, fault.other), (number, rule, place, other));
        let mut memory = Memory { volume: b.volume.clone(), buffer: vec![9; 32], ..Memory::default() };
        assert_eq!(telling::fault(b.geometry, &mut memory), 36 + (5 << 16));
        assert_eq!(memory.buffer[..4], [rule, place as u8, number as u8, (number >> 8) as u8]);
    }
}

#[test]
fn number_41_and_delete_on_altered_volumes() {
    // D 2, T 300: 1 is below D, 300 and 8,192 are beyond T-1.
    for (low, high) in [(1, 0), (44, 1), (0, 32), (255, 255)] {
        let mut b = Bench::open(2048, 300, 2, Way::Kept);
        b.on(MAKE, "A");
        b.set_byte(0, 15, 1);
        b.set_byte(0, 16, low);
        b.set_byte(0, 17, high);
        b.control = control_for("A");
        for function in [SEQUENTIAL_READ, RANDOM_READ, SEQUENTIAL_WRITE, RANDOM_WRITE, ZERO_FILL_WRITE] {
            refused(&mut b, function, 0, 41);
        }
        let held: Held = [1, 44, 300].into_iter().collect();
        b.state().holding = Holding::Kept(held.clone());
        assert_eq!(b.on(DELETE, "A"), 0);
        assert_eq!(b.state().holding, Holding::Kept(held));
    }
}

/// What is lent at the seam: slot 0 is A with block 256.
fn memory() -> Memory {
    let mut b = disk();
    b.on(MAKE, "A");
    hold_below(&mut b, 256);
    assert_eq!(b.write("A", 0, 7), 0);
    let (control, buffer) = (control_for("A"), vec![0; 128]);
    Memory { drive: vec![0xAA; 544], volume: b.volume, control, buffer }
}

#[test]
fn the_drives_544_bytes() {
    let mut memory = memory();
    assert_eq!(seam::log_in(GEOMETRY, &mut memory), 298 << 16);
    let mut paper = vec![0; 544];
    paper[..6].copy_from_slice(&[0, 8, 44, 1, 1, 0]);
    // Block 256 is bit 0 of byte 32 + 32.
    paper[64] = 1;
    assert_eq!(memory.drive, paper);
    let state = decode(&paper).expect("an open drive");
    assert_eq!(encode(&state), paper);
    paper[543] = 0x80;
    let state = decode(&paper).expect("an open drive");
    let held: Held = [256, 4095].into_iter().collect();
    assert_eq!(state.holding, Holding::Kept(held));
    assert_eq!(encode(&state), paper);
    // The words never close it, and an earlier byte does.
    paper[32..].fill(0xFF);
    assert!(decode(&paper).is_some());
    paper[31] = 1;
    assert!(decode(&paper).is_none());
    // 13 keeps the length, also where it is refused.
    assert_eq!(seam::call(13, 0, &mut memory), 298 << 16);
    memory.volume[5 * 32] = 16;
    assert_eq!(seam::call(37, 0, &mut memory), 36 + (5 << 16));
    assert_eq!(memory.drive, vec![0; 544]);
    assert_eq!(seam::call(13, 0, &mut memory), 32);
}

#[test]
fn a_drive_that_has_not_the_length_of_its_t() {
    let mut open = memory();
    assert_eq!(seam::log_in(GEOMETRY, &mut open), 298 << 16);
    for length in [0, 1, 3, 64, 543, 545] {
        let mut drive = open.drive.clone();
        drive.resize(length, 0);
        let before = Memory { drive, ..open.clone() };
        let mut after = before.clone();
        for function in [13, 15, 34, 99] {
            assert_eq!(seam::call(function, 0, &mut after), 32);
            assert_eq!(cut::cut(9, function, 0, &mut after), 32);
        }
        assert_eq!(telling::file(0, &mut after), 32);
        assert_eq!(seam::log_in(GEOMETRY, &mut after), 32);
        assert_eq!(after, before);
    }
    // A narrow T in 544 bytes stays; in 64 bytes a wide one does, lawful or not.
    for (blocks, length) in [(40u16, 544), (256, 544), (1, 544), (257, 64), (4097, 64), (65535, 64)] {
        let mut before = open.clone();
        before.drive[2..4].copy_from_slice(&blocks.to_le_bytes());
        before.drive.resize(length, 0);
        let mut after = before.clone();
        assert_eq!(seam::call(15, 0, &mut after), 32);
        assert_eq!(cut::cut(9, 34, 0, &mut after), 32);
        assert_eq!(seam::log_in(Geometry { blocks: blocks as u32, ..GEOMETRY }, &mut after), 32);
        assert_eq!(after, before);
    }
    // T 5,000 is outside the rules and asks for 544 bytes: a cut and a log-in leave zeros.
    let mut before = open.clone();
    before.drive[2..4].copy_from_slice(&5000u16.to_le_bytes());
    let mut after = before.clone();
    assert_eq!(seam::call(15, 0, &mut after), 32);
    assert_eq!(after, before);
    assert_eq!(cut::cut(9, 34, 0, &mut after), 32);
    assert_eq!(after.drive, vec![0; 544]);
    after.drive.fill(7);
    assert_eq!(seam::log_in(Geometry { blocks: 65536 + 40, ..GEOMETRY }, &mut after), 32);
    assert_eq!(after.drive, vec![0; 544]);
}

#[test]
fn the_line_of_a_file() {
    let mut memory = memory();
    memory.volume[30] = 255;
    assert_eq!(seam::log_in(GEOMETRY, &mut memory), 297 << 16);
    memory.buffer = vec![9; 24];
    assert_eq!(telling::file(0, &mut memory), 0);
    // Two blocks: 256 in place 0, whose low byte is 0, and 255 in place 7.
    assert_eq!(memory.buffer[12..20], [0, 0, 1, 0, 0, 0, 2, 0]);
}

#[test]
fn stores_and_cuts() {
    let mut b = disk();
    assert_eq!(b.on(MAKE, "A"), 0);
    hold_below(&mut b, 256);
    b.buffer = vec![5; 128];
    b.control = control_for("A");
    show_record(&mut b.control, 18);
    let asked = |function: u8| {
        let (drive, volume) = (b.drive.clone(), b.volume.clone());
        Asked { drive, function, parameter: 0, volume, control: b.control.clone(), buffer: b.buffer.clone() }
    };
    let records = |function: u8| -> Vec<usize> {
        asked(function).stores().1.iter().map(|store| store.record).collect()
    };
    assert_eq!(records(RANDOM_WRITE), [256 * 16 + 2, 0]);
    let filled: Vec<usize> = (256 * 16..257 * 16).chain([0]).collect();
    assert_eq!(records(ZERO_FILL_WRITE), filled);
    let mut memory = Memory {
        drive: encode(b.drive.as_ref().expect("open")),
        volume: b.volume.clone(),
        control: b.control.clone(),
        buffer: b.buffer.clone(),
    };
    assert_eq!(cut::cut(1, RANDOM_WRITE, 0, &mut memory), 1 << 16);
    assert_eq!(memory.drive, vec![0; 544]);
    b.volume[(256 * 16 + 2) * 128..][..128].fill(5);
    assert!(memory.volume == b.volume);
}

#[test]
fn several_records_over_the_border_of_an_entry() {
    let mut b = disk();
    assert_eq!(b.on(MAKE, "A"), 0);
    b.control = control_for("A");
    b.control[CR] = 126;
    b.buffer = vec![3; 4 * 128];
    assert_eq!(b.answer(WRITE_SEVERAL, 4), (0, 4));
    assert_eq!((b.control[EX], b.control[CR]), (1, 2));
    assert_eq!((b.map(0)[7], b.map(1)[0]), (1, 2));
}

#[test]
fn replay_takes_3_mib() {
    let call = |function: u8| Call { function, parameter: 0, control: vec![], buffer: vec![] };
    for (blocks, text) in [(1536, "13 0 1535 - -\nEND 1\n"), (1537, "BAD SCRIPT 0\nEND 0\n")] {
        let geometry = Geometry::new(2048, blocks, 1);
        let script = Script {
            geometry,
            volume: vec![0xE5; 2048 * blocks as usize],
            calls: vec![call(13)],
            bad: false,
        };
        assert_eq!(expected(&Script::decode(&script.encode())).0, text);
    }
}
