//! Random shelves: where a shelf begins, and the volumes that are put on it.

use super::random::Random;
use super::scripts::geometry_and_volume;
use crate::doors::shelf::{encode, SHELF_BYTES};
use crate::paper::geometry::Geometry;
use crate::paper::shelf::{Shelf, FIGURE_LIMIT, MOST_VOLUMES};

/// The bytes of the shelf before the first volume: mostly bare, some nearly
/// full, with figures at the limit, of another length, or noise.
pub fn shelf_bytes(r: &mut Random) -> Vec<u8> {
    let mut shelf = Shelf::default();
    match r.below(10) {
        0..=5 => {}
        6 => shelf[7] = MOST_VOLUMES - r.below(4) as u64,
        7 => shelf[r.below(8)] = FIGURE_LIMIT - r.below(3) as u64,
        8 => return r.bytes(SHELF_BYTES),
        _ => return r.bytes_of(&[0, 1, SHELF_BYTES - 1, SHELF_BYTES + 1, 2 * SHELF_BYTES]),
    }
    encode(&shelf)
}

pub fn volumes(r: &mut Random) -> Vec<(Geometry, Vec<u8>)> {
    (0..r.between(1, 8)).map(|_| geometry_and_volume(r)).collect()
}
