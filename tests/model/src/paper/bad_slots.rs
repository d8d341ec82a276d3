//! Why a slot is bad: which rule of "Inspection at log-in" it breaks first, in
//! the order of the paper's sentence.

use super::directory::{entry_at, Entry, Map};
use super::floppy::logical;
use super::geometry::Geometry;
use super::names::is_name;

/// The rule by its number from 1 on, and what it speaks of besides the slot.
#[derive(Clone, Copy, PartialEq, Eq, Debug)]
pub struct Fault {
    pub rule: u8,
    /// The lowest place that breaks the rule, and the number that stands there.
    pub place: usize,
    pub number: u16,
    /// The lowest of the lower slots that the rule speaks of.
    pub other: Option<usize>,
}

fn of_entry(rule: u8) -> Fault {
    Fault { rule, place: 0, number: 0, other: None }
}

/// Rules 1 to 7: user; name; top bits; ex; s1; s2; rc.
fn own_bytes(entry: &Entry) -> Option<Fault> {
    let bytes = &entry.bytes;
    let top_bit_elsewhere = [1, 2, 3, 4, 5, 6, 7, 8, 11].iter().any(|&i| bytes[i] >= 0x80);
    let broken = [
        entry.user() > 15,
        !is_name(entry.name_bytes()),
        top_bit_elsewhere,
        bytes[12] > 31,
        bytes[13] != 0,
        bytes[14] > 15,
        bytes[15] > 128,
    ];
    (1..).zip(broken).find(|(_, broken)| *broken).map(|(rule, _)| of_entry(rule))
}

/// The lowest place whose number is not 0 and is against a rule; where it is,
/// the rule may name another slot.
fn own_places(map: &Map, rule: u8, against: impl Fn(usize, u16) -> Option<Option<usize>>) -> Option<Fault> {
    (0..map.len()).filter(|&place| map[place] != 0).find_map(|place| {
        let number = map[place];
        against(place, number).map(|other| Fault { rule, place, number, other })
    })
}

/// The first rule that a slot breaks, if it breaks one.
pub fn first_fault(geometry: &Geometry, volume: &[u8], slot: usize) -> Option<Fault> {
    let volume = &logical(geometry, volume);
    let entry = entry_at(volume, slot);
    if entry.is_empty() {
        return None;
    }
    let lower: Vec<(usize, Entry)> =
        (0..slot).map(|slot| (slot, entry_at(volume, slot))).filter(|(_, entry)| !entry.is_empty()).collect();
    let lowest =
        |fits: &dyn Fn(&Entry) -> bool| lower.iter().find(|(_, entry)| fits(entry)).map(|(slot, _)| *slot);
    let same = |other: &Entry| {
        (other.user(), other.name(), geometry.group(other.extent()))
            == (entry.user(), entry.name(), geometry.group(entry.extent()))
    };
    let map = entry.map(geometry);
    let lowest_with = |number: u16| lowest(&|other| other.map(geometry).contains(&number));
    own_bytes(&entry)
        .or_else(|| own_places(&map, 8, |_, number| (!geometry.is_data_block(number)).then_some(None)))
        .or_else(|| own_places(&map, 9, |place, number| map[..place].contains(&number).then_some(None)))
        .or_else(|| own_places(&map, 10, |_, number| lowest_with(number).map(Some)))
        .or_else(|| lowest(&same).map(|other| Fault { other: Some(other), ..of_entry(11) }))
}
