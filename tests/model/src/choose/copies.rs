//! Two volumes for a fresh disk: an image as scripts have them, and a second of
//! noise.

use super::random::Random;
use super::scripts::geometry_and_volume;
use crate::paper::geometry::Geometry;

/// The geometry, the first volume and the second, which mostly has its length.
pub fn copy(r: &mut Random) -> (Geometry, Vec<u8>, Vec<u8>) {
    let (geometry, first) = geometry_and_volume(r);
    let length = first.len();
    let second = if r.percent(85) {
        r.bytes(length)
    } else {
        r.bytes_of(&[0, 1, length.saturating_sub(1), length + 1, length + 128])
    };
    (geometry, first, second)
}
