//! The lister's text of a volume of V's geometry (40,960 bytes).

use std::collections::BTreeSet;

use super::directory::{entry_at, slots_of_file, Entry};
use super::geometry::Geometry;
use super::held::Way;
use super::inspection::log_in;

/// A file's line: user, name, type, size, blocks held.
fn line(geometry: &Geometry, volume: &[u8], entry: &Entry) -> String {
    let mut size = 0;
    let mut blocks = 0;
    for slot in slots_of_file(geometry, volume, entry.user(), &entry.name()) {
        let entry = entry_at(volume, slot);
        size = size.max(entry.size());
        blocks += entry.map(geometry).iter().filter(|&&number| number != 0).count();
    }
    let name: String = entry.name().iter().map(|&byte| byte as char).collect();
    format!("{} {}.{} {} {}\n", entry.user(), &name[..8], &name[8..], size, blocks)
}

pub fn listing(volume: &[u8]) -> String {
    let geometry = Geometry::new(1024, 40, 1);
    let (answer, number, _) = log_in(geometry, volume, Way::Plain);
    match answer {
        0 => {}
        36 => return format!("REFUSED 36 {}\n", number),
        refused => return format!("REFUSED {}\n", refused),
    }
    let mut text = String::from("USER NAME TYPE RECORDS BLOCKS\n");
    let mut listed = BTreeSet::new();
    for slot in 0..geometry.slots() {
        let entry = entry_at(volume, slot);
        if !entry.is_empty() && listed.insert((entry.user(), entry.name())) {
            text += &line(&geometry, volume, &entry);
        }
    }
    text + &format!("FREE {}\n", number)
}
