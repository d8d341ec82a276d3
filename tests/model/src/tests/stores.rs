//! The records that each changing call stores, worked out by hand, and what is
//! left of it when it is cut.

use super::*;
use crate::check::cuts::first_fault;
use crate::doors::cut::cut;
use crate::doors::drive_bytes::{closed, encode};
use crate::doors::script::Call;
use crate::doors::seam::Memory;
use crate::paper::calls::*;
use crate::paper::control::{show_record, CR};
use crate::paper::geometry::RECORD;
use crate::paper::held::Holding;
use crate::paper::stores::{lay_down, Asked, Store};

/// The call as it stands on the bench.
fn asked(b: &Bench, function: u8, parameter: u8) -> Asked {
    let (drive, volume) = (b.drive.clone(), b.volume.clone());
    Asked { drive, function, parameter, volume, control: b.control.clone(), buffer: b.buffer.clone() }
}

/// The records that the call stores, in order; all of them laid down are what it leaves.
fn records(b: &Bench, function: u8, parameter: u8) -> Vec<usize> {
    let mut whole = asked(b, function, parameter);
    let (refusal, stores) = whole.stores();
    assert_eq!(refusal, 0);
    let mut volume = b.volume.clone();
    lay_down(&b.geometry, &mut volume, &stores);
    whole.done();
    assert!(volume == whole.volume);
    assert!(stores.iter().all(|store| store.bytes.len() == RECORD));
    stores.iter().map(|store| store.record).collect()
}

fn for_record(b: &mut Bench, file: &str, n: u32) {
    b.control = control_for(file);
    show_record(&mut b.control, n);
}

/// B 1,024, T 8, D 1. Slots 0, 4 and 9 are B.TXT in groups 0, 1 and 2, all others
/// files of their own; block 1 is the first record's of B.TXT.
fn spread() -> Bench {
    let mut b = Bench::open(1024, 8, 1, Way::Kept);
    let other = |slot: usize| format!("O{}", slot);
    assert_eq!(b.on(MAKE, "B.TXT"), 0);
    assert_eq!(b.write("B.TXT", 0, 7), 0);
    for slot in 1..4 {
        assert_eq!(b.on(MAKE, &other(slot)), slot as u32 % 4);
    }
    assert_eq!(b.write("B.TXT", 128, 8), 0);
    for slot in 5..9 {
        assert_eq!(b.on(MAKE, &other(slot)), slot as u32 % 4);
    }
    assert_eq!(b.write("B.TXT", 256, 9), 0);
    b
}

#[test]
fn a_write_stores_its_record_and_then_the_entry() {
    let mut b = spread();
    b.buffer = vec![5; RECORD];
    // Block 1 begins at record 8; slot 0 lies in record 0, slot 4 in 1, slot 9 in 2.
    for_record(&mut b, "B.TXT", 3);
    assert_eq!(records(&b, RANDOM_WRITE, 0), [11, 0]);
    for_record(&mut b, "B.TXT", 128);
    assert_eq!(records(&b, RANDOM_WRITE, 0), [16, 1]);
    // The directory record is stored also where its bytes stay as they are.
    let stores = asked(&b, RANDOM_WRITE, 0).stores().1;
    assert_eq!(stores[1], Store { record: 1, bytes: b.volume[128..256].to_vec() });
    for_record(&mut b, "B.TXT", 256);
    assert_eq!(records(&b, ZERO_FILL_WRITE, 0), [24, 2]);
    b.control[CR] = 2;
    assert_eq!(records(&b, SEQUENTIAL_WRITE, 0), [10, 0]);
    // A new group: block 4, and slot 10, the lowest that is empty.
    for_record(&mut b, "B.TXT", 3 * 128 + 5);
    assert_eq!(records(&b, RANDOM_WRITE, 0), [37, 2]);
}

#[test]
fn a_filling_write_stores_each_record_of_a_new_block() {
    let mut b = spread();
    b.buffer = vec![5; RECORD];
    for_record(&mut b, "B.TXT", 8 + 6);
    assert_eq!(records(&b, ZERO_FILL_WRITE, 0), [32, 33, 34, 35, 36, 37, 38, 39, 0]);
    let stores = asked(&b, ZERO_FILL_WRITE, 0).stores().1;
    for (i, store) in stores[..8].iter().enumerate() {
        assert_eq!(store.bytes, vec![if i == 6 { 5 } else { 0 }; RECORD]);
    }
    assert_eq!(records(&b, RANDOM_WRITE, 0), [38, 0]);
}

#[test]
fn directory_calls_store_each_record_once() {
    let mut b = spread();
    b.control = control_for("B.TXT");
    b.control[17..28].copy_from_slice(&name("NEW"));
    for function in [DELETE, RENAME, ATTRIBUTES] {
        assert_eq!(records(&b, function, 0), [0, 1, 2]);
    }
    // 30 that sets the bits that are there stores all the same.
    let stores = asked(&b, ATTRIBUTES, 0).stores().1;
    assert!(stores.iter().all(|store| store.bytes == b.volume[store.record * RECORD..][..RECORD]));
    b.control = control_for("O1");
    assert_eq!(records(&b, DELETE, 0), [0]);
    b.control[1..12].copy_from_slice(b"O??????????");
    assert_eq!(records(&b, DELETE, 0), [0, 1, 2]);
    b.control = control_for("FRESH");
    assert_eq!(records(&b, MAKE, 0), [2]);
}

#[test]
fn several_store_as_their_single_writes() {
    let mut b = spread();
    b.control = control_for("B.TXT");
    b.control[CR] = 7;
    b.buffer = vec![5; 2 * RECORD];
    // Record 7 in block 1, record 8 in block 4.
    assert_eq!(records(&b, WRITE_SEVERAL, 2), [15, 0, 32, 0]);
    let stores = asked(&b, WRITE_SEVERAL, 2).stores().1;
    assert_eq!((stores[1].bytes[15], stores[1].bytes[17]), (8, 0));
    assert_eq!((stores[3].bytes[15], stores[3].bytes[17]), (9, 4));
    // One that stops stores what was done.
    b.state().holding = Holding::Kept((0..=255).collect());
    assert_eq!(records(&b, WRITE_SEVERAL, 2), [15, 0]);
    b.control[CR] = 8;
    assert_eq!(asked(&b, WRITE_SEVERAL, 2).stores(), (2, Vec::new()));
}

#[test]
fn what_changes_nothing_stores_nothing() {
    let mut b = spread();
    b.control = control_for("B.TXT");
    for function in CALLS.iter().copied().filter(|f| ![19, 21, 22, 23, 30, 34, 40, 221].contains(f)) {
        let parameter = if function == READ_SEVERAL { 1 } else { 255 };
        let (refusal, stores) = asked(&b, function, parameter).stores();
        // No search is open.
        assert_eq!((refusal, stores), (if function == SEARCH_NEXT { 255 } else { 0 }, Vec::new()));
    }
}

/// What is lent at the seam.
fn memory(b: &Bench) -> Memory {
    let drive = b.drive.as_ref().map(encode).expect("the drive is open");
    Memory { drive, volume: b.volume.clone(), control: b.control.clone(), buffer: b.buffer.clone() }
}

#[test]
fn a_cut_closes_the_drive() {
    let mut b = spread();
    b.control = control_for("B.TXT");
    for most in 0..5 {
        let mut left = memory(&b);
        assert_eq!(cut(most, DELETE, 0, &mut left), most.min(3) << 16);
        let mut volume = b.volume.clone();
        for slot in [0, 4, 9].iter().take(most as usize) {
            volume[32 * slot] = 0xE5;
        }
        assert!(left == Memory { drive: closed(8), volume, ..memory(&b) });
    }
}

#[test]
fn a_cut_that_is_refused_closes_the_drive_too() {
    let mut b = spread();
    b.control = control_for("NONE");
    // Make of a name that is new answers a code, and the cut 0.
    for (function, answer) in [(DELETE, 255), (99, 31), (13, 0), (37, 0), (MAKE, 1 << 16), (READ_SEVERAL, 46)]
    {
        let mut left = memory(&b);
        assert_eq!(cut(u32::MAX, function, 0, &mut left), answer);
        assert_eq!(left.drive, closed(8));
        assert!(function == MAKE || left.volume == b.volume);
    }
    let mut malformed = memory(&b);
    malformed.drive[31] = 1;
    let mut left = malformed.clone();
    assert_eq!(cut(1, DELETE, 0, &mut left), 32);
    assert!(left == Memory { drive: closed(8), ..malformed });
    let short = Memory { drive: vec![9; 63], ..memory(&b) };
    let mut left = short.clone();
    assert_eq!(cut(1, 99, 0, &mut left), 32);
    assert!(left == short);
}

/// What is demanded of a cut, where the stores are these.
fn demanded(b: &Bench, function: u8, parameter: u8, stores: &[Store]) -> Option<String> {
    let mut after = memory(b);
    lay_down(&b.geometry, &mut after.volume, stores);
    let call = Call { function, parameter, control: b.control.clone(), buffer: b.buffer.clone() };
    let made = stores.len() as u32;
    first_fault(made, &call, &memory(b), &after, made << 16)
}

#[test]
fn wrong_orders_are_found() {
    let mut b = spread();
    b.buffer = vec![5; RECORD];
    for_record(&mut b, "B.TXT", 8 + 6);
    let stores = asked(&b, RANDOM_WRITE, 0).stores().1;
    assert_eq!(demanded(&b, RANDOM_WRITE, 0, &stores[..1]), None);
    assert_eq!(demanded(&b, RANDOM_WRITE, 0, &stores), None);
    // The directory first: the record is present before its bytes are there.
    let fault = demanded(&b, RANDOM_WRITE, 0, &stores[1..]);
    assert_eq!(fault, Some("record 14 is present with bytes that nobody wrote".to_string()));
    // Half of a record that was there.
    for_record(&mut b, "B.TXT", 0);
    let mut half = asked(&b, RANDOM_WRITE, 0).stores().1;
    half.truncate(1);
    half[0].bytes[64..].copy_from_slice(&b.volume[1024 + 64..1024 + 128]);
    assert_eq!(
        demanded(&b, RANDOM_WRITE, 0, &half),
        Some("record 0 of the file that is written is not kept".to_string())
    );
    // A store into a block of another group's.
    half[0].record = 16;
    assert_eq!(
        demanded(&b, RANDOM_WRITE, 0, &half),
        Some("record 128 of the file that is written is not kept".to_string())
    );
}

#[test]
fn a_cut_that_touches_another_file_is_found() {
    let mut b = spread();
    b.control = control_for("O1");
    let mut stores = asked(&b, DELETE, 0).stores().1;
    assert_eq!(demanded(&b, DELETE, 0, &stores), None);
    // Slot 0, of B.TXT, lies in the same record.
    stores[0].bytes[0] = 0xE5;
    let fault = demanded(&b, DELETE, 0, &stores).expect("a fault");
    assert!(fault.starts_with("record 0 of B       TXT of user 0 is not"), "{}", fault);
    stores[0].bytes[0] = 16;
    let fault = demanded(&b, DELETE, 0, &stores);
    assert_eq!(fault, Some("slot 0 of what is left does not pass inspection".to_string()));
}
