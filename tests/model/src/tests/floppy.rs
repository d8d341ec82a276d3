//! Request (i), "eight-inch floppies": where records lie, worked out by hand, and
//! calls on an image beside the same on the unskewed volume.

use super::*;
use crate::doors::cut::cut;
use crate::doors::drive_bytes::{closed, decode, encode};
use crate::doors::replay::expected;
use crate::doors::script::{Call, Script};
use crate::doors::seam::{self, Memory};
use crate::doors::telling;
use crate::paper::calls::*;
use crate::paper::floppy::{lay_back, logical, start, IMAGE_BYTES};
use crate::paper::geometry::{Geometry, FLOPPY, RECORD};

#[test]
fn where_records_lie() {
    // Track 2 begins at (26 times 2) times 128; its first record is in sector 1.
    let paper = [
        (0, 6656),
        (1, 7424),
        (2, 8192),
        (5, 7168),
        (13, 6784),
        (17, 9856),
        (25, 9344),
        (26, 9984),
        (27, 10752),
        (1943, 254_336),
        (1949, 255_616),
    ];
    for (q, at) in paper {
        assert_eq!(start(q), at, "record {}", q);
    }
}

#[test]
fn no_two_records_share_a_sector() {
    let mut taken = vec![false; IMAGE_BYTES / RECORD];
    // 75 tracks of 26 sectors: the volume's 1,944 records and six more.
    for q in 0..1950 {
        assert!(start(q) % RECORD == 0 && start(q) >= 2 * 26 * RECORD);
        assert!(!std::mem::replace(&mut taken[start(q) / RECORD], true));
    }
    assert_eq!(taken.iter().filter(|&&sector| !sector).count(), 52);
    assert_eq!(FLOPPY.records(), 1944);
}

#[test]
fn geometries() {
    assert!(FLOPPY.within_rules() && FLOPPY.straight().within_rules());
    for wrong in [
        Geometry { block_bytes: 2048, ..FLOPPY },
        Geometry { blocks: 242, ..FLOPPY },
        Geometry { blocks: 244, ..FLOPPY },
        Geometry { directory_blocks: 1, ..FLOPPY },
        Geometry { directory_blocks: 3, ..FLOPPY },
        Geometry { placing: 2, ..FLOPPY },
        Geometry { placing: 256, ..FLOPPY },
        Geometry { placing: 2, ..Geometry::new(1024, 40, 1) },
        Geometry { placing: 1, ..Geometry::new(1024, 40, 1) },
    ] {
        assert!(!wrong.within_rules(), "{:?}", wrong);
    }
}

/// An empty image, other bytes in what no record of the volume stands in.
fn empty_image() -> Memory {
    let mut image: Vec<u8> = (0..IMAGE_BYTES).map(|at| (at / 7 + at / RECORD) as u8).collect();
    let mut volume = logical(&FLOPPY, &image).into_owned();
    volume[..2048].fill(0xE5);
    lay_back(&mut image, &volume);
    Memory { drive: closed(243), volume: image, control: control_for("A"), buffer: vec![7; RECORD] }
}

#[test]
fn a_record_written() {
    let mut memory = empty_image();
    let before = memory.volume.clone();
    assert_eq!(seam::log_in(FLOPPY, &mut memory), 241 << 16);
    assert_eq!((memory.drive[..6].to_vec(), memory.drive[24]), (vec![0, 4, 243, 0, 2, 0], 1));
    assert_eq!(seam::call(MAKE, 0, &mut memory), 0);
    assert_eq!(seam::call(RANDOM_WRITE, 0, &mut memory), 0);
    // Block 2 is logical records 16 to 23; record 16 is in sector 20 of track 2.
    let at = (26 * 2 + 19) * RECORD;
    assert_eq!(memory.volume[at..at + RECORD], [7; RECORD]);
    let mut paper = before;
    paper[at..at + RECORD].fill(7);
    // The entry is in logical record 0, in sector 1 of track 2.
    paper[6656..6656 + 12].copy_from_slice(b"\0A          ");
    paper[6656 + 12..6656 + 32].fill(0);
    paper[6656 + 15] = 1;
    paper[6656 + 16] = 2;
    assert!(memory.volume == paper);
    assert_eq!(memory.drive[32], 4);
}

#[test]
fn log_in_anew_keeps_the_placing() {
    let mut memory = empty_image();
    assert_eq!(seam::log_in(FLOPPY, &mut memory), 241 << 16);
    for function in LOG_INS {
        assert_eq!(seam::call(function, 0, &mut memory), 241 << 16);
        assert_eq!(memory.drive[24], 1);
    }
    let state = decode(&memory.drive).expect("an open drive");
    assert_eq!((state.geometry, encode(&state)), (FLOPPY, memory.drive.clone()));
    // Slot 4 is in logical record 1, in sector 7 of track 2.
    memory.volume[7424] = 16;
    assert_eq!(seam::call(13, 0, &mut memory), 36 + (4 << 16));
    assert_eq!(memory.drive, closed(243));
    memory.buffer = vec![0; 32];
    assert_eq!(telling::fault(FLOPPY, &mut memory), 36 + (4 << 16));
    assert_eq!((memory.buffer[0], memory.buffer[4]), (1, 4));
}

#[test]
fn number_33_for_another_length() {
    let mut open = empty_image();
    assert_eq!(seam::log_in(FLOPPY, &mut open), 241 << 16);
    // The unskewed volume's length too.
    for length in [0, 243 * 1024, IMAGE_BYTES - 1, IMAGE_BYTES + 1] {
        let mut memory = open.clone();
        memory.volume.resize(length, 0);
        let before = memory.clone();
        assert_eq!(seam::call(OPEN, 0, &mut memory), 33);
        memory.control.clear();
        assert_eq!(seam::call(RANDOM_WRITE, 0, &mut memory), 33);
        assert_eq!(seam::call(USER, 255, &mut memory), 0);
        assert!(memory.volume == before.volume && memory.drive == before.drive);
        assert_eq!(cut(9, RANDOM_WRITE, 0, &mut memory), 33);
        assert_eq!(seam::log_in(FLOPPY, &mut memory), 33);
        assert!(memory.volume == before.volume);
    }
    // And an image is none of a straight volume of the same numbers.
    assert_eq!(seam::log_in(FLOPPY.straight(), &mut open), 33);
}

#[test]
fn a_cut_lays_records_where_they_lie() {
    let mut memory = empty_image();
    seam::log_in(FLOPPY, &mut memory);
    assert_eq!(seam::call(MAKE, 0, &mut memory), 0);
    let before = memory.volume.clone();
    for (most, stores) in [(0, vec![]), (1, vec![0]), (2, vec![0, 1]), (9, vec![0, 1, 2, 3, 4, 5, 6, 7])] {
        let mut cut_off = memory.clone();
        assert_eq!(cut(most, ZERO_FILL_WRITE, 0, &mut cut_off) >> 16, most.min(9));
        let mut paper = before.clone();
        for i in stores {
            paper[start(16 + i)..][..RECORD].fill(if i == 0 { 7 } else { 0 });
        }
        if most == 9 {
            paper[6656 + 15] = 1;
            paper[6656 + 16] = 2;
        }
        assert!(cut_off.volume == paper, "{} stores", most);
    }
}

#[test]
fn a_script_of_an_image() {
    let image = empty_image().volume;
    let call =
        |function: u8| Call { function, parameter: 0, control: control_for("A"), buffer: vec![7; RECORD] };
    let script = Script {
        geometry: FLOPPY,
        volume: image.clone(),
        calls: vec![call(13), call(22), call(34)],
        bad: false,
    };
    let bytes = script.encode();
    assert_eq!(bytes[..10], [0, 4, 243, 0, 2, 1, 0, 0xE9, 3, 0]);
    assert_eq!(Script::decode(&bytes), script);
    let text = expected(&script).0;
    // Records are pieces of the image: 52 is sector 1 of track 2, 71 its sector 20.
    let records: Vec<&str> = text.lines().filter(|line| line.starts_with("RECORD ")).collect();
    assert_eq!(records.len(), 2);
    assert!(records[0].starts_with("RECORD 52 0041") && records[1].starts_with("RECORD 71 0707"));
    assert!(text.starts_with("13 0 241 - -\n"));
    // Another placing is 32.
    let other = Script { geometry: Geometry { placing: 2, ..FLOPPY }, ..script };
    assert!(expected(&other).0.starts_with("13 32 0 - -\n"));
}
