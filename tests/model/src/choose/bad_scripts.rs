//! Scripts that are cut off, overlong, or have a number that is not served.

use super::random::Random;
use crate::doors::script::{encode_call, Call, Script, LARGEST_VOLUME, TOUCH};
use crate::paper::calls::is_served;

pub fn bad_script(r: &mut Random, script: &Script) -> Vec<u8> {
    let mut bytes = script.encode();
    let head = 10 + script.volume.len();
    match r.below(8) {
        0 => bytes.truncate(r.below(12)),
        1 => bytes.truncate(r.below(bytes.len())),
        2..=3 => bytes.truncate(r.between(head, bytes.len())),
        4 => {
            let length = r.pick(&[LARGEST_VOLUME as u32 + 1, 0x0100_0000, u32::MAX]);
            bytes[6..10].copy_from_slice(&length.to_le_bytes());
        }
        5 => bytes.push(r.byte()),
        _ => bytes = with_number_not_served(r, script),
    }
    bytes
}

/// A function's number that is not served (0 is none, at the seam).
pub fn number_not_served(r: &mut Random) -> u8 {
    loop {
        let function = r.byte();
        if !is_served(function) {
            return function;
        }
    }
}

/// One call more, of a number that is not served, among the others.
fn with_number_not_served(r: &mut Random, script: &Script) -> Vec<u8> {
    let before = r.between(0, script.calls.len());
    let mut bytes = Script { calls: script.calls[..before].to_vec(), ..script.clone() }.encode();
    let mut function = TOUCH;
    while function == TOUCH {
        function = number_not_served(r);
    }
    encode_call(&Call { function, parameter: 0, control: vec![0; 36], buffer: Vec::new() }, &mut bytes);
    for call in &script.calls[before..] {
        encode_call(call, &mut bytes);
    }
    bytes
}
