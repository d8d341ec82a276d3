//! The shelf at the emulator's seam: what `churawel_shelf` must answer and
//! leave.

use crate::paper::geometry::Geometry;
use crate::paper::shelf::{put, Shelf, OUTSIDE};

/// Eight numbers of eight bytes, low byte first.
pub const SHELF_BYTES: usize = 64;

pub fn encode(shelf: &Shelf) -> Vec<u8> {
    shelf.iter().flat_map(|figure| figure.to_le_bytes()).collect()
}

fn decode(bytes: &[u8]) -> Shelf {
    let mut shelf = Shelf::default();
    for (figure, piece) in shelf.iter_mut().zip(bytes.chunks_exact(8)) {
        *figure = piece.iter().rev().fold(0, |number, &byte| number << 8 | byte as u64);
    }
    shelf
}

/// The number in the low 16 bits, what log-in answered in the high 16.
pub fn shelf(geometry: Geometry, volume: &[u8], bytes: &mut [u8]) -> u32 {
    if bytes.len() != SHELF_BYTES {
        return OUTSIDE;
    }
    let mut shelf = decode(bytes);
    let (number, said) = put(&mut shelf, geometry, volume);
    bytes.copy_from_slice(&encode(&shelf));
    number + 65536 * said
}
