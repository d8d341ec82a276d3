//! The drive's state between calls. A closed drive is `None`.

use super::geometry::Geometry;
use super::held::Holding;
use super::names::{is_pattern, Name, ANY};

pub type Drive = Option<State>;

#[derive(Clone, PartialEq, Eq, Debug)]
pub struct State {
    pub geometry: Geometry,
    pub user: u8,
    pub protected: bool,
    pub search: Option<KeptSearch>,
    pub holding: Holding,
}

/// What "search first" keeps for "search next".
#[derive(Clone, PartialEq, Eq, Debug)]
pub struct KeptSearch {
    /// Begun with dr 3FH: every slot matches.
    pub every_slot: bool,
    pub user: u8,
    /// The slot of the last hit.
    pub last: u32,
    /// The pattern's bytes as they were lent.
    pub name: Name,
    pub ex: u8,
}

impl KeptSearch {
    fn within_rules(&self, geometry: &Geometry) -> bool {
        let pattern = self.every_slot || (is_pattern(&self.name) && (self.ex <= 31 || self.ex == ANY));
        self.user <= 15 && (self.last as usize) < geometry.slots() && pattern
    }
}

impl State {
    /// "A state whose geometry, user or kept search is outside the rules counts
    /// as closed."
    pub fn within_rules(&self) -> bool {
        let search = match &self.search {
            None => true,
            Some(search) => search.within_rules(&self.geometry),
        };
        self.geometry.within_rules() && self.user <= 15 && search
    }
}
