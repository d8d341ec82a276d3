//! The refusal 36: inspection at log-in.

use super::*;
use crate::choose::tellings::telling;
use crate::doors::chain::Step;
use crate::doors::script::lay;
use crate::paper::bad_slots::{first_fault, Fault};
use crate::paper::calls::*;
use crate::paper::geometry::Geometry;
use crate::paper::inspection::lowest_bad_slot;

#[test]
fn number_36_bad_slots() {
    // D 2, T 8. Two entries: slot 0 with blocks 2 and 3, slot 5 with block 4.
    let make = || {
        let mut b = Bench::closed(1024, 8, 2, Way::Kept);
        let mut first = [0u8; 32];
        first[1..12].copy_from_slice(&name("ONE.TXT"));
        first[16] = 2;
        first[17] = 3;
        let mut second = first;
        second[1..12].copy_from_slice(&name("TWO.TXT"));
        second[16] = 4;
        second[17] = 0;
        b.volume[0..32].copy_from_slice(&first);
        b.volume[160..192].copy_from_slice(&second);
        b
    };
    assert_eq!(make().log_in(), (0, 3));
    #[rustfmt::skip]
    let bad: [(usize, u8); 24] = [
        (0, 16), (0, 0xE4), (0, 0xE6), (0, 0xFF),
        (1, 0x20), (2, 0x1F), (2, 0x7F), (3, 0x3F), (1, b'T' | 0x80), (8, 0xA0), (11, b'T' | 0x80),
        (9, 0xBF), (10, 0xFF),
        (12, 32), (13, 1), (14, 16), (15, 129),
        (16, 1), (16, 8), (16, 255), (17, 4), (20, 2), (31, 3), (20, 4),
    ];
    for (byte, value) in bad {
        let mut b = make();
        b.set_byte(5, byte, value);
        assert_eq!(b.log_in(), (36, 5), "byte {} value {}", byte, value);
        assert_eq!(b.drive, None);
    }
    #[rustfmt::skip]
    let good: [(usize, u8); 14] = [
        (0, 15), (0, 0xE5), (1, 0x21), (1, 0x7E), (2, 0x20), (9, b'T' | 0x80), (10, b'X' | 0x80),
        (12, 31), (14, 15), (15, 128), (16, 0), (17, 7), (20, 5), (20, 0),
    ];
    for (byte, value) in good {
        let mut b = make();
        b.set_byte(5, byte, value);
        assert_eq!(b.log_in().0, 0, "byte {} value {}", byte, value);
    }
}

#[test]
fn number_36_same_file_and_group() {
    let mut b = Bench::open(2048, 8, 1, Way::Kept);
    b.on(MAKE, "SAME");
    let entry = b.entry(0).bytes;
    b.volume[64..96].copy_from_slice(&entry);
    assert_eq!(b.log_in(), (36, 2));
    // Extent 1 is of group 0 where X is 2, extent 2 of group 1.
    b.set_byte(2, 12, 1);
    assert_eq!(b.log_in(), (36, 2));
    b.set_byte(2, 12, 2);
    assert_eq!(b.log_in(), (0, 7));
    // Another user's, and one that differs in attributes only.
    b.set_byte(2, 12, 0);
    b.set_byte(2, 0, 1);
    assert_eq!(b.log_in(), (0, 7));
    b.set_byte(2, 0, 0);
    b.set_byte(2, 9, 0x20 | 0x80);
    assert_eq!(b.log_in(), (36, 2));
    // What stands in an empty slot does not count.
    b.set_byte(0, 0, 0xE5);
    assert_eq!(b.log_in(), (0, 7));
}

/// The first fault of slot 5 where the slots 0 and 5 of `number_36_bad_slots`
/// stand and these bytes of slot 5 are altered.
fn fault_of(altered: &[(usize, u8)]) -> Option<(u8, usize, u16, Option<usize>)> {
    let mut volume = vec![0xE5; 8 * 1024];
    let entry = |name: &str, blocks: [u8; 2]| {
        let mut bytes = [0; 32];
        bytes[1..12].copy_from_slice(&super::name(name));
        bytes[16..18].copy_from_slice(&blocks);
        bytes
    };
    volume[0..32].copy_from_slice(&entry("ONE.TXT", [2, 3]));
    volume[160..192].copy_from_slice(&entry("TWO.TXT", [4, 0]));
    for (byte, value) in altered {
        volume[160 + byte] = *value;
    }
    let fault = first_fault(&Geometry::new(1024, 8, 2), &volume, 5);
    fault.map(|Fault { rule, place, number, other }| (rule, place, number, other))
}

#[test]
fn the_first_rule_broken() {
    let own = |rule| Some((rule, 0, 0, None));
    assert_eq!(fault_of(&[]), None);
    assert_eq!(fault_of(&[(0, 0xE5), (12, 32)]), None);
    let alone = [
        (0, 16, 1),
        (1, 0x20, 2),
        (3, 0x3F, 2),
        (10, 0xFF, 2),
        (11, 0xD4, 3),
        (12, 32, 4),
        (13, 1, 5),
        (14, 16, 6),
    ];
    for (byte, value, rule) in alone {
        assert_eq!(fault_of(&[(byte, value)]), own(rule), "byte {}", byte);
        // Rules before others: rc, the map, the same group.
        assert_eq!(fault_of(&[(15, 129), (31, 8), (byte, value)]), own(rule), "byte {}", byte);
    }
    assert_eq!(fault_of(&[(15, 129), (31, 8)]), own(7));
    assert_eq!(fault_of(&[(17, 4), (18, 2), (19, 1), (20, 8)]), Some((8, 3, 1, None)));
    assert_eq!(fault_of(&[(17, 2), (18, 4)]), Some((9, 2, 4, None)));
    assert_eq!(fault_of(&[(17, 5), (18, 3)]), Some((10, 2, 3, Some(0))));
    let same = [(1, b'O'), (2, b'N'), (3, b'E')];
    assert_eq!(fault_of(&same), Some((11, 0, 0, Some(0))));
    assert_eq!(fault_of(&[same[0], same[1], same[2], (16, 2)]), Some((10, 0, 2, Some(0))));
    assert_eq!(fault_of(&[same[0], same[1], same[2], (12, 1)]), None);
}

/// A slot is bad exactly where it breaks a rule, and tellings break each.
#[test]
fn tellings_break_every_rule() {
    let mut broken = [0; 12];
    for number in 0..400 {
        let telling = telling(1, number);
        let mut volume = telling.volume;
        for step in telling.steps {
            match step {
                Step::Lay(offset, bytes) => lay(&mut volume, offset, &bytes),
                Step::Fault(geometry, _)
                    if geometry.within_rules() && volume.len() == geometry.volume_bytes() =>
                {
                    let first = (0..geometry.slots())
                        .find_map(|slot| Some((slot, first_fault(&geometry, &volume, slot)?)));
                    assert_eq!(first.map(|(slot, _)| slot), lowest_bad_slot(&geometry, &volume));
                    broken[first.map_or(0, |(_, fault)| fault.rule as usize)] += 1;
                }
                Step::Volume(other) => volume = other,
                _ => {}
            }
        }
    }
    assert!(broken.iter().all(|&count| count >= 5), "{:?}", broken);
}
