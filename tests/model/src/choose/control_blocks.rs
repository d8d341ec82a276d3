//! Control blocks for a call, in order as far as can be seen.

use super::aims::{aim, Aim, View};
use super::pool::{name_hard_to_type, name_of_pool};
use super::random::Random;
use crate::paper::calls::*;
use crate::paper::control::{self, CONTROL_BYTES, CR, DR, EX};
use crate::paper::geometry::extent_of_record;
use crate::paper::names::{Name, ANY};

/// 36 bytes for a call on this file and record. What the call doesn't use is
/// zero or noise.
pub fn control_block(r: &mut Random, view: &View, function: u8, aim: Aim) -> Vec<u8> {
    let mut control = if r.percent(40) { vec![0; CONTROL_BYTES] } else { r.bytes(CONTROL_BYTES) };
    control[DR] = r.below(2) as u8;
    control[1..12].copy_from_slice(&aim.name);
    show_position(r, &mut control, aim.record);
    control::show_record(&mut control, aim.record);
    match function {
        OPEN => fit_open(r, &mut control),
        SEARCH_FIRST => fit_search(r, &mut control),
        DELETE if r.percent(15) => put_wildcards(r, &mut control),
        MAKE => fit_make(r, view, &mut control),
        RENAME => fit_rename(r, view, aim.name, &mut control),
        _ => {}
    }
    if function == ATTRIBUTES {
        choose_attributes(r, &mut control);
    } else if r.percent(15) {
        // Top bits are ignored.
        r.add_top_bits(&mut control[1..12]);
    }
    control
}

/// The sequential position n; at an extent's border in one of its two forms.
pub fn show_position(r: &mut Random, control: &mut [u8], n: u32) {
    let mut extent = extent_of_record(n);
    let mut cr = n % 128;
    if cr == 0 && extent > 0 && r.percent(40) {
        extent -= 1;
        cr = 128;
    }
    control::show_extent(control, extent);
    control[CR] = cr as u8;
}

fn fit_open(r: &mut Random, control: &mut [u8]) {
    if r.percent(35) {
        put_wildcards(r, control);
    }
    if r.percent(60) {
        control[EX] = 0;
    }
}

fn fit_search(r: &mut Random, control: &mut [u8]) {
    if r.percent(35) {
        put_wildcards(r, control);
    }
    if r.percent(60) {
        control[EX] = ANY;
    }
    if r.percent(15) {
        control[DR] = ANY;
        if r.percent(60) {
            // Name and ex are not examined.
            r.fill(&mut control[1..13]);
        }
    }
}

fn put_wildcards(r: &mut Random, control: &mut [u8]) {
    let any = r.pick(&[ANY, ANY, ANY, ANY | 0x80]);
    match r.below(3) {
        0 => control[1..12].fill(any),
        1 => control[1 + r.below(11)] = any,
        _ => {
            for byte in &mut control[1..12] {
                if r.percent(50) {
                    *byte = any;
                }
            }
        }
    }
}

fn fit_make(r: &mut Random, view: &View, control: &mut [u8]) {
    match r.below(100) {
        0..=7 => control[1..12].copy_from_slice(&name_hard_to_type(r)),
        8..=88 => control[1..12].copy_from_slice(&view.new_name(r)),
        _ => {}
    }
    control[EX] = 0;
}

fn fit_rename(r: &mut Random, view: &View, old: Name, control: &mut [u8]) {
    let new = match r.below(11) {
        0..=6 => view.new_name(r),
        7 => old,
        8 => aim(r, view, false).name,
        9 => name_hard_to_type(r),
        _ => name_of_pool(r),
    };
    control[17..28].copy_from_slice(&new);
    if r.percent(15) {
        r.add_top_bits(&mut control[17..28]);
    }
}

fn choose_attributes(r: &mut Random, control: &mut [u8]) {
    if r.percent(25) {
        control[9] |= 0x80;
    }
    if r.percent(40) {
        control[10] |= 0x80;
    }
}
