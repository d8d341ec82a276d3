//! Calls as they go into a script, now and then with things out of order: one,
//! or several at once, so that the order of the tests decides.

use super::random::Random;
use crate::doors::script::Call;
use crate::paper::calls::{is_lent_buffer, is_lent_control, is_several, RENAME, USER};
use crate::paper::control::{CONTROL_BYTES, CR, DR, EX, R2, S2};
use crate::paper::geometry::RECORD;

/// The call with this control block, now and then with something out of order.
pub fn finished(r: &mut Random, function: u8, parameter: u8, control: Vec<u8>) -> Call {
    let faults = if r.percent(14) { r.weighted(&[(60, 1), (25, 2), (15, 4)]) } else { 0 };
    finished_with(r, function, parameter, control, faults)
}

/// The call with this control block and so many things out of order.
pub fn finished_with(
    r: &mut Random,
    function: u8,
    parameter: u8,
    mut control: Vec<u8>,
    faults: usize,
) -> Call {
    let parameter = if function != USER && r.percent(20) { r.byte() } else { parameter };
    let faults = if is_lent_control(function) { faults } else { 0 };
    for _ in 0..faults {
        if control.len() == CONTROL_BYTES {
            put_out_of_order(r, function, &mut control);
        }
    }
    if !is_lent_control(function) && r.percent(25) {
        // Not lent to the call, so never looked at.
        control = r.bytes_of(&[1, 5, 36, 36, 255]);
    }
    let mut buffer = buffer(r, function, faults > 1);
    let mut parameter = parameter;
    if is_several(function) {
        (parameter, buffer) = pieces(r, faults > 1);
    }
    Call { function, parameter, control, buffer }
}

/// A number of records and a buffer for so many; either is wrong now and then.
fn pieces(r: &mut Random, faulty: bool) -> (u8, Vec<u8>) {
    let k = if r.percent(70) { r.between(1, 5) } else { r.between(1, 16) } as u8;
    let wrong = if faulty { 20 } else { 3 };
    let given = if r.percent(wrong) { r.pick(&[0, 17, 18, 128, 255]) } else { k };
    let length =
        if r.percent(wrong) { r.pick(&[0, 1, 127, 128, 129, 2047, 2049]) } else { RECORD * k as usize };
    (given, r.bytes(length))
}

/// A call that is lent neither control block nor buffer.
pub fn finished_without(r: &mut Random, function: u8, parameter: u8) -> Call {
    finished(r, function, parameter, Vec::new())
}

fn buffer(r: &mut Random, function: u8, faulty: bool) -> Vec<u8> {
    if !is_lent_buffer(function) {
        let given = r.percent(12);
        return if given { r.bytes_of(&[1, 128, 128, 128, 300, 4096]) } else { Vec::new() };
    }
    if r.percent(if faulty { 25 } else { 2 }) {
        let large = r.percent(5);
        return r.bytes_of(if large { &[65535] } else { &[0, 1, 127, 129, 256] });
    }
    r.bytes(RECORD)
}

fn put_out_of_order(r: &mut Random, function: u8, control: &mut Vec<u8>) {
    match r.below(10) {
        0 => control.resize(r.pick(&[0, 1, 16, 33, 35, 37, 64, 255]), 0x20),
        1..=2 => control[DR] = r.pick(&[2, 3, 16, 62, 63, 64, 0x80, 0xBF, 255]),
        3..=4 => put_name_out_of_order(r, function, control),
        5 => control[EX] = r.pick(&[1, 31, 32, 33, 63, 64, 0x80, 0xBF, 255]),
        6 => control[S2] = r.pick(&[15, 16, 17, 32, 255]),
        7 => control[CR] = r.pick(&[127, 128, 129, 130, 255]),
        8 => {
            // Position 65,536.
            control[EX] = 31;
            control[S2] = 15;
            control[CR] = 128;
        }
        _ => control[R2] = r.pick(&[1, 2, 128, 255]),
    }
}

fn put_name_out_of_order(r: &mut Random, function: u8, control: &mut [u8]) {
    let name = if function == RENAME && r.percent(50) { 17 } else { 1 };
    control[name + r.below(11)] = r.pick(&[0, 0x1F, 0x20, 0x3F, 0x3F, 0x3F, 0x7F, 0x9F, 0xA0, 0xBF, 0xFF]);
    if r.percent(30) {
        control[name] = r.pick(&[0x20, 0xA0, 0x7F, 0x3F]);
    }
    if r.percent(30) {
        control[name + r.below(11)] = r.pick(&[0x20, 0xA0, 0x2A, 0x3D, 0xBD, 0x61, 0xFA]);
    }
}
