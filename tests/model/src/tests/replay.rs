//! The script and the text of `replay`.

use super::*;
use crate::doors::replay::expected;
use crate::doors::script::{Call, Script};
use crate::paper::geometry::Geometry;

/// The text for the bytes of a script.
fn text(bytes: &[u8]) -> String {
    expected(&Script::decode(bytes)).0
}

/// Log-in, make, random write, user, search next with a wrong buffer, touch at
/// the end, on a volume of two blocks. A log-in takes five bytes.
fn small_script() -> Script {
    let mut b = Bench::closed(1024, 2, 1, Way::Kept);
    b.volume[1024..].fill(0);
    let call =
        |function: u8, control: Vec<u8>, buffer: Vec<u8>| Call { function, parameter: 255, control, buffer };
    let calls = vec![
        call(13, vec![], vec![]),
        call(22, control_for("A"), vec![]),
        call(34, control_for("A"), vec![0xAB; 128]),
        call(32, vec![1, 2, 3], vec![4]),
        call(18, vec![9], vec![]),
        Call::touch(2046, &[1, 2, 3, 4]),
    ];
    Script { geometry: b.geometry, volume: b.volume, calls, bad: false }
}

/// Where the calls of the small script begin.
const CALLS_BEGIN: usize = 10 + 2048;

#[test]
fn a_scripts_bytes() {
    let script = small_script();
    let bytes = script.encode();
    assert_eq!(bytes[..10], [0, 4, 2, 0, 1, 0, 0, 8, 0, 0]);
    assert_eq!(Script::decode(&bytes), script);
}

#[test]
fn a_scripts_text() {
    let name = "004120202020202020202020";
    let made = format!("{}{}", name, "00".repeat(24));
    let written = format!("{}0000000101{}", name, "00".repeat(19));
    let entry = format!("{}0000000101{}", name, "00".repeat(15));
    let data = "AB".repeat(128);
    let lines = [
        "13 0 1 - -".to_string(),
        format!("22 0 0 ={} -", made),
        format!("34 0 0 ={} ={}", written, data),
        "32 0 0 - -".to_string(),
        "18 35 0 - =".to_string(),
        "0 0 0 - -".to_string(),
        format!("RECORD 0 {}{}", entry, "E5".repeat(96)),
        format!("RECORD 8 {}", data),
        format!("RECORD 15 {}0102", "00".repeat(126)),
        "END 6\n".to_string(),
    ];
    assert_eq!(text(&small_script().encode()), lines.join("\n"));
}

#[test]
fn scripts_that_are_cut_off() {
    let bytes = small_script().encode();
    for length in [0, 1, 9, 10, CALLS_BEGIN - 1] {
        assert_eq!(text(&bytes[..length]), "BAD SCRIPT 0\nEND 0\n");
    }
    assert_eq!(text(&bytes[..CALLS_BEGIN]), "END 0\n");
    for length in 1..5 {
        assert_eq!(text(&bytes[..CALLS_BEGIN + length]), "BAD SCRIPT 0\nEND 0\n");
    }
    assert_eq!(text(&bytes[..CALLS_BEGIN + 5]), "13 0 1 - -\nEND 1\n");
    assert_eq!(text(&bytes[..CALLS_BEGIN + 6]), "13 0 1 - -\nBAD SCRIPT 1\nEND 1\n");
    // The RECORD lines of a bad script are those of its good calls.
    let cut = text(&bytes[..bytes.len() - 1]);
    assert!(cut.contains("\nBAD SCRIPT 5\nRECORD 0 "));
    assert!(cut.ends_with("\nEND 5\n"));
}

#[test]
fn a_number_that_is_not_served() {
    let mut bytes = small_script().encode();
    bytes.truncate(CALLS_BEGIN + 5);
    bytes.extend([14, 0, 0, 0, 0]);
    assert_eq!(text(&bytes), "13 0 1 - -\nBAD SCRIPT 1\nEND 1\n");
}

#[test]
fn an_overlong_script() {
    let mut bytes = small_script().encode();
    bytes[6..10].copy_from_slice(&3_145_729u32.to_le_bytes());
    assert_eq!(text(&bytes), "BAD SCRIPT 0\nEND 0\n");
}

#[test]
fn a_shorter_last_piece_is_a_record() {
    let geometry = Geometry::new(1024, 2, 1);
    let log_in = Call { function: 37, parameter: 0, control: vec![], buffer: vec![] };
    let calls = vec![Call::touch(128, &[7, 8, 9, 10]), log_in];
    let script = Script { geometry, volume: vec![0; 130], calls, bad: false };
    assert_eq!(text(&script.encode()), "0 0 0 - -\n37 33 0 - -\nRECORD 1 0708\nEND 2\n");
}

#[test]
fn a_touch_without_a_whole_offset_lays_nothing() {
    for length in 0..3 {
        let touch = Call { function: 0, parameter: 9, control: vec![0; length], buffer: vec![7] };
        let script =
            Script { geometry: Geometry::new(0, 0, 0), volume: vec![5; 4], calls: vec![touch], bad: false };
        assert_eq!(text(&script.encode()), "0 0 0 - -\nEND 1\n");
    }
}
