//! Hand-worked cases: the paper's examples, each refusal of the table and its
//! order against the next ones, what succeeds, which block a write takes,
//! several records a call, what the shelf holds, the stores of a call, volumes of
//! more than 256 blocks, floppies, fresh disks, the script's text, the seam's
//! bytes, and mistakes that the comparison must find.

mod bench;
mod chosen;
mod examples;
mod files;
mod floppy;
mod fresh;
mod mistakes;
mod pairs;
mod records;
mod refused_by_control_block;
mod refused_by_file;
mod refused_by_inspection;
mod refused_by_record;
mod refused_by_state_and_lengths;
mod replay;
mod seam;
mod several;
mod shelf;
mod sigla;
mod stores;
mod together;
mod typing;
mod wide;

use bench::{control_for, name, Bench};

use crate::paper::calls::MAKE;
use crate::paper::held::Way;

/// All calls that are lent a control block, but those of several records.
pub const WITH_CONTROL: [u8; 14] = [15, 16, 17, 19, 20, 21, 22, 23, 30, 33, 34, 35, 36, 40];
/// All calls that are lent a transfer buffer, but those of several records.
pub const WITH_BUFFER: [u8; 7] = [17, 18, 20, 21, 33, 34, 40];

/// B 1,024, T 8, D 1, with A.TXT (slot 0) that has records 0 to 2 in block 1.
pub fn bench() -> Bench {
    let mut b = Bench::open(1024, 8, 1, Way::Kept);
    assert_eq!(b.on(MAKE, "A.TXT"), 0);
    for n in 0..3 {
        assert_eq!(b.write("A.TXT", n, n as u8), 0);
    }
    assert_eq!(b.map(0)[0], 1);
    assert_eq!(b.entry(0).rc(), 3);
    b
}

/// The call is refused with the number, and nothing has changed.
pub fn refused(b: &mut Bench, function: u8, parameter: u8, number: u32) {
    let before = (b.volume.clone(), b.drive.clone(), b.control.clone(), b.buffer.clone());
    assert_eq!(b.call_with(function, parameter), number, "function {}", function);
    assert!(before == (b.volume.clone(), b.drive.clone(), b.control.clone(), b.buffer.clone()));
}

pub fn refused_on(b: &mut Bench, function: u8, file: &str, number: u32) {
    b.control = control_for(file);
    b.control[17..28].copy_from_slice(&name("OTHER.NEW"));
    refused(b, function, 0, number);
}
