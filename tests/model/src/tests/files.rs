//! What the calls on whole files leave when they succeed: in the control block,
//! the transfer buffer, the directory and the state.

use super::*;
use crate::paper::calls::*;
use crate::paper::control::{DR, EX, R0, R1, R2, RC, S1, S2};
use crate::paper::names::ANY;

#[test]
fn open_shows_the_entry() {
    let mut b = bench();
    b.set_byte(0, 9, b'T' | 0x80);
    b.control = vec![0x77; 36];
    b.control[0] = 1;
    b.control[1..12].copy_from_slice(b"a???????TXT");
    b.control[1] = b'A' | 0x80;
    b.control[EX] = 0;
    assert_eq!(b.call(OPEN), 0);
    let mut shown = vec![0x77; 36];
    shown[0] = 1;
    shown[1..12].copy_from_slice(b"A       TXT");
    shown[9] = b'T' | 0x80;
    shown[EX] = 0;
    shown[S1] = 0;
    shown[S2] = 0;
    shown[RC] = 3;
    shown[16..32].fill(0);
    shown[16] = 1;
    assert_eq!(b.control, shown);
}

#[test]
fn open_takes_s2_as_0_and_counts_the_extent() {
    // X 4: extents 0 to 3 are one group.
    let mut b = Bench::open(4096, 8, 1, Way::Plain);
    b.on(MAKE, "WIDE");
    assert_eq!(b.write("WIDE", 128 * 2 + 9, 1), 0);
    for (ex, count) in [(0, 128), (1, 128), (2, 10), (3, 0)] {
        b.control = control_for("WIDE");
        b.control[EX] = ex;
        b.control[S2] = 15;
        assert_eq!(b.call(OPEN), 0);
        assert_eq!((b.control[EX], b.control[S2], b.control[RC]), (ex, 0, count));
    }
    b.control = control_for("WIDE");
    b.control[EX] = 4;
    refused(&mut b, OPEN, 0, 255);
    // An entry's group is that of its full E.
    assert_eq!(b.write("WIDE", 128 * 32, 1), 0);
    assert_eq!((b.entry(1).bytes[12], b.entry(1).bytes[14]), (0, 1));
    b.control = control_for("WIDE");
    assert_eq!(b.call(OPEN), 0);
    b.control = control_for("WIDE");
    b.control[S2] = 1;
    assert_eq!(b.call(CLOSE), 1);
}

#[test]
fn search_goes_on_after_the_last_hit() {
    let mut b = Bench::open(1024, 8, 1, Way::Kept);
    for file in ["A.1", "B.1", "C.2", "D.1", "E.2", "F.1"] {
        b.on(MAKE, file);
    }
    b.control = control_for("?.1");
    b.control[2..9].fill(ANY);
    assert_eq!(b.call(SEARCH_FIRST), 0);
    assert_eq!(b.buffer, b.volume[0..128].to_vec());
    assert_eq!(b.call(SEARCH_NEXT), 1);
    // Deleting, another user and a first without a hit do not end it.
    assert_eq!(b.on(DELETE, "D.1"), 0);
    assert_eq!(b.call_with(USER, 9), 0);
    refused_on(&mut b, SEARCH_FIRST, "A.1", 255);
    assert_eq!(b.call(SEARCH_NEXT), 1);
    assert_eq!(b.buffer, b.volume[128..256].to_vec());
    refused(&mut b, SEARCH_NEXT, 0, 255);
    // It stays open: a later match is found.
    b.call_with(USER, 0);
    b.on(MAKE, "X.2");
    assert_eq!(b.on(MAKE, "G.1"), 2);
    assert_eq!(b.call(SEARCH_NEXT), 2);
    // Log-in ends it.
    b.log_in();
    refused(&mut b, SEARCH_NEXT, 0, 255);
}

#[test]
fn search_of_every_slot() {
    let mut b = bench();
    b.control = vec![0xFF; 36];
    b.control[DR] = ANY;
    assert_eq!(b.call(SEARCH_FIRST), 0);
    for slot in 1..32 {
        assert_eq!(b.call(SEARCH_NEXT), slot % 4);
        let record = slot as usize / 4 * 128;
        assert_eq!(b.buffer, b.volume[record..record + 128].to_vec());
    }
    refused(&mut b, SEARCH_NEXT, 0, 255);
    assert_eq!(b.state().search.as_ref().map(|search| search.last), Some(31));
}

#[test]
fn search_by_group() {
    let mut b = Bench::open(1024, 8, 1, Way::Kept);
    b.on(MAKE, "A");
    b.write("A", 128, 1);
    b.write("A", 256, 1);
    b.control = control_for("A");
    b.control[EX] = 2;
    assert_eq!(b.call(SEARCH_FIRST), 2);
    refused(&mut b, SEARCH_NEXT, 0, 255);
    b.control[EX] = 63;
    assert_eq!(b.call(SEARCH_FIRST), 0);
    assert_eq!(b.call(SEARCH_NEXT), 1);
    assert_eq!(b.call(SEARCH_NEXT), 2);
}

#[test]
fn delete_gives_blocks_back() {
    for way in [Way::Plain, Way::Kept] {
        let mut b = Bench::open(1024, 4, 1, way);
        b.on(MAKE, "A");
        b.on(MAKE, "B");
        for (file, n, block) in [("A", 0, 1), ("B", 0, 2), ("A", 128, 3)] {
            assert_eq!(b.write(file, n, 1), 0);
            assert_eq!(b.control[16], block);
        }
        b.control = control_for("B");
        b.control[R0] = 8;
        refused(&mut b, RANDOM_WRITE, 0, 2);
        assert_eq!(b.on(DELETE, "A"), 0);
        assert_eq!((b.volume[0], b.volume[64]), (0xE5, 0xE5));
        // All other bytes of the erased entries stay.
        assert_eq!(b.volume[16], 1);
        for n in [8, 16] {
            assert_eq!(b.write("B", n, 1), 0);
        }
        assert_eq!(b.map(1)[..3], [2, 3, 1]);
    }
}

#[test]
fn make_clears_what_it_must() {
    let mut b = bench();
    b.call_with(USER, 5);
    b.control = vec![0x99; 36];
    b.control[0] = 0;
    b.control[1..12].copy_from_slice(b"NEW     FIL");
    b.control[9] |= 0x80;
    b.control[EX] = 0;
    assert_eq!(b.call(MAKE), 1);
    let mut shown = vec![0x99; 36];
    shown[0] = 0;
    shown[1..12].copy_from_slice(b"NEW     FIL");
    shown[12..32].fill(0);
    assert_eq!(b.control, shown);
    let mut entry = [0; 32];
    entry[0] = 5;
    entry[1..12].copy_from_slice(b"NEW     FIL");
    assert_eq!(b.entry(1).bytes, entry);
}

#[test]
fn rename_keeps_attribute_bits() {
    let mut b = bench();
    b.write("A.TXT", 128, 1);
    b.set_byte(0, 10, b'X' | 0x80);
    b.set_byte(0, 3, 0xA0);
    b.control = control_for("A.TXT");
    b.control[17..28].copy_from_slice(b"NEWNAME1NEW");
    b.control[18] |= 0x80;
    b.control[28..32].fill(0xFF);
    assert_eq!(b.call(RENAME), 0);
    assert_eq!(
        &b.entry(0).bytes[1..12],
        &[b'N', b'E', b'W', b'N', b'A', b'M', b'E', b'1', b'N', b'E' | 0x80, b'W']
    );
    assert_eq!(&b.entry(1).bytes[1..12], b"NEWNAME1NEW");
}

/// SIGLA.TXT, with two entries and the system bit, beside another user's; then renamed from name to name, always by 0.
fn renamed(names: &[&str]) -> (Vec<u8>, Vec<u8>) {
    let mut b = Bench::open(1024, 8, 1, Way::Plain);
    b.on(MAKE, "SIGLA.TXT");
    b.write("SIGLA.TXT", 0, 1);
    b.write("SIGLA.TXT", 128, 2);
    b.set_byte(1, 10, b'X' | 0x80);
    b.call_with(USER, 3);
    b.on(MAKE, "SIGLA.TXT");
    b.call_with(USER, 0);
    let before = b.volume.clone();
    for pair in names.windows(2) {
        b.control = control_for(pair[0]);
        b.control[17..28].copy_from_slice(&name(pair[1]));
        assert_eq!(b.call(RENAME), 0);
    }
    (before, b.volume)
}

/// "Renaming first to second and second to third gives the same bytes as first to third, and renaming there and back gives
/// the old bytes."
#[test]
fn renaming_by_a_third_name_leaves_no_trace() {
    let (old, by_third) = renamed(&["SIGLA.TXT", "SIGLA.$$$", "LESARTEN.BAK"]);
    let (_, direct) = renamed(&["SIGLA.TXT", "LESARTEN.BAK"]);
    assert!(by_third == direct && direct != old);
    let (old, back) = renamed(&["SIGLA.TXT", "SIGLA.$$$", "SIGLA.TXT"]);
    assert!(back == old);
}

#[test]
fn size_takes_the_largest() {
    let mut b = bench();
    b.write("A.TXT", 300, 1);
    b.on(SIZE, "A.TXT");
    assert_eq!((b.control[R0], b.control[R1], b.control[R2]), (45, 1, 0));
    // On an altered volume E may go beyond 511.
    b.set_byte(0, 12, 255);
    b.set_byte(0, 14, 255);
    b.set_byte(0, 15, 255);
    b.on(SIZE, "A.TXT");
    let size = 128 * (32 * 255 + 255) + 128;
    assert_eq!(b.control[R0] as u32 + 256 * b.control[R1] as u32 + 65536 * b.control[R2] as u32, size);
}
