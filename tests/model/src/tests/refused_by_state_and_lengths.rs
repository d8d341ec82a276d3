//! The refusals 32 to 35: state, geometry and what is lent.

use super::*;
use crate::paper::calls::*;
use crate::paper::geometry::Geometry;
use crate::paper::state::KeptSearch;

#[test]
fn number_32_closed_and_geometry() {
    let mut b = Bench::closed(1024, 8, 1, Way::Kept);
    for function in CALLS {
        refused(&mut b, function, 0, 32);
    }
    for (bytes, blocks, directory) in
        [(512, 8, 1), (3072, 8, 1), (1024, 1, 1), (1024, 257, 1), (1024, 8, 0), (1024, 40, 17), (1024, 4, 4)]
    {
        b.geometry = Geometry::new(bytes, blocks, directory);
        assert_eq!(b.log_in(), (32, 0));
        assert_eq!(b.drive, None);
    }
}

#[test]
fn geometry_limits_are_accepted() {
    for (bytes, blocks, directory) in
        [(1024, 2, 1), (4096, 256, 16), (2048, 17, 16), (1024, 256, 1), (4096, 2, 1)]
    {
        let mut b = Bench::closed(bytes, blocks, directory, Way::Plain);
        assert_eq!(b.log_in(), (0, blocks - directory));
    }
}

#[test]
fn number_32_states_outside_the_rules_count_as_closed() {
    let mut b = bench();
    b.state().user = 16;
    for function in CALLS {
        refused(&mut b, function, 0, 32);
    }
    b.state().user = 0;
    let search = KeptSearch { every_slot: false, user: 0, last: 31, name: name("A.TXT"), ex: 31 };
    let wrong = [
        KeptSearch { user: 16, ..search.clone() },
        KeptSearch { last: 32, ..search.clone() },
        KeptSearch { ex: 32, ..search.clone() },
        KeptSearch { ex: 64, ..search.clone() },
        KeptSearch { name: name(" A"), ..search.clone() },
        KeptSearch { name: [0x7F; 11], ..search.clone() },
        KeptSearch { name: [0xFF; 11], ..search.clone() },
        KeptSearch { every_slot: true, last: 32, ..search.clone() },
    ];
    for search in wrong {
        b.state().search = Some(search);
        refused(&mut b, USER, 255, 32);
    }
    let right = [
        KeptSearch { ex: 63, ..search.clone() },
        KeptSearch { name: [0xBF; 11], ..search.clone() },
        KeptSearch { every_slot: true, name: [0; 11], ex: 200, ..search.clone() },
        search,
    ];
    for search in right {
        b.state().search = Some(search);
        assert_eq!(b.call_with(USER, 255), 0);
    }
}

#[test]
fn number_33_length_of_volume() {
    let mut b = bench();
    b.volume.pop();
    for function in CALLS {
        b.control = control_for("A.TXT");
        b.control[17..28].copy_from_slice(&name("B.TXT"));
        let number = match function {
            USER | PROTECT | SET_RANDOM => 0,
            _ => 33,
        };
        assert_eq!(b.call_with(function, 0), number);
    }
    // 33 before 34 and 35.
    b.control.clear();
    b.buffer.clear();
    refused(&mut b, RANDOM_READ, 0, 33);
    assert_eq!(b.log_in(), (33, 0));
    assert_eq!(b.drive, None);
}

#[test]
fn number_34_control_block() {
    let mut b = bench();
    for length in [0, 35, 37] {
        for function in WITH_CONTROL {
            b.control = vec![0xFF; length];
            b.buffer.clear();
            refused(&mut b, function, 0, 34);
        }
    }
}

#[test]
fn number_35_transfer_buffer() {
    let mut b = bench();
    for length in [0, 127, 129] {
        for function in WITH_BUFFER {
            b.control = vec![0xFF; 36];
            b.buffer = vec![7; length];
            refused(&mut b, function, 0, 35);
        }
    }
    // Open is lent none.
    b.buffer.clear();
    assert_eq!(b.on(OPEN, "A.TXT"), 0);
}
