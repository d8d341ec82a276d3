//! Held blocks. The plain way works them out anew from the directory each time
//! they are asked for; the kept way carries them in the state.

use std::collections::BTreeSet;

use super::directory::entry_at;
use super::floppy::logical;
use super::geometry::Geometry;

/// Which way of knowing the held blocks a drive has.
#[derive(Clone, Copy, PartialEq, Eq, Debug)]
pub enum Way {
    Plain,
    Kept,
}

/// The numbers of the held blocks.
pub type Held = BTreeSet<u16>;

/// The numbers D..T-1 found in entries, nothing else.
pub fn held_by_entries(geometry: &Geometry, volume: &[u8]) -> Held {
    let volume = logical(geometry, volume);
    let mut held = Held::new();
    for slot in 0..geometry.slots() {
        let entry = entry_at(&volume, slot);
        if !entry.is_empty() {
            held.extend(entry.map(geometry).iter().filter(|&&number| geometry.is_data_block(number)));
        }
    }
    held
}

/// "A block is free if it is from D to T-1 and the state doesn't hold it":
/// these blocks, rising.
pub fn free_blocks<'a>(geometry: &Geometry, held: &'a Held) -> impl Iterator<Item = u16> + 'a {
    let data = geometry.directory_blocks..geometry.blocks;
    data.map(|number| number as u16).filter(|number| !held.contains(number))
}

/// What a drive keeps of its held blocks.
#[derive(Clone, PartialEq, Eq, Debug)]
pub enum Holding {
    /// The plain way: nothing is kept, the directory is asked each time.
    WorkedOut,
    /// The state's own: log-in works them out, a write that takes a block adds
    /// it, a delete gives back those of the entries it erases.
    Kept(Held),
}

impl Holding {
    pub fn new(way: Way, held: Held) -> Holding {
        match way {
            Way::Plain => Holding::WorkedOut,
            Way::Kept => Holding::Kept(held),
        }
    }

    pub fn now(&self, geometry: &Geometry, volume: &[u8]) -> Held {
        match self {
            Holding::WorkedOut => held_by_entries(geometry, volume),
            Holding::Kept(held) => held.clone(),
        }
    }

    pub fn take(&mut self, number: u16) {
        if let Holding::Kept(held) = self {
            held.insert(number);
        }
    }

    pub fn give_back(&mut self, number: u16) {
        if let Holding::Kept(held) = self {
            held.remove(&number);
        }
    }
}
