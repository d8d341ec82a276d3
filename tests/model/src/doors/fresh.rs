//! The fresh disk at the emulator's seam: what `churawel_fresh_copy` must answer
//! and leave.

use crate::paper::floppy::{lay_back, logical};
use crate::paper::fresh::fresh;
use crate::paper::geometry::Geometry;
use crate::paper::held::Way;
use crate::paper::inspection;

/// "Refusals: those of log-in for the first, then 33 for the second." The number
/// in the low 16 bits, the free blocks or the bad slot in the high 16.
pub fn fresh_copy(geometry: Geometry, first: &[u8], second: &mut [u8]) -> u32 {
    let (number, value, _) = inspection::log_in(geometry, first, Way::Plain);
    if number != 0 {
        return number + 65536 * value;
    }
    if second.len() != geometry.volume_bytes() {
        return 33;
    }
    let copy = fresh(&geometry.straight(), &logical(&geometry, first));
    if geometry.is_floppy() {
        lay_back(second, &copy);
    } else {
        second.copy_from_slice(&copy);
    }
    65536 * value
}
