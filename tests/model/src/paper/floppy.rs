//! "Eight-inch floppies" (02, i): "77 tracks of 26 sectors of 128 bytes, 256,256
//! bytes, two tracks reserved". A call on an image is the call on the unskewed
//! volume, whose records are then put back where they lie.

use std::borrow::Cow;

use super::geometry::{Geometry, RECORD};

/// Bytes of an image.
pub const IMAGE_BYTES: usize = 256_256;

const TRACK_SECTORS: usize = 26;
const RESERVED_TRACKS: usize = 2;

/// The sectors of a track in the order of its logical records.
const SECTORS: [usize; TRACK_SECTORS] =
    [1, 7, 13, 19, 25, 5, 11, 17, 23, 3, 9, 15, 21, 2, 8, 14, 20, 26, 6, 12, 18, 24, 4, 10, 16, 22];

/// "Logical record q lies on track 2 + q div 26, in the sector given by place q
/// mod 26 of" the table. "Sector s of track t starts at ((26t + s - 1) times 128)."
pub fn start(q: usize) -> usize {
    let track = RESERVED_TRACKS + q / TRACK_SECTORS;
    let sector = SECTORS[q % TRACK_SECTORS];
    (TRACK_SECTORS * track + sector - 1) * RECORD
}

/// Where logical record q of a volume begins.
pub fn start_of(geometry: &Geometry, q: usize) -> usize {
    if geometry.is_floppy() {
        start(q)
    } else {
        q * RECORD
    }
}

/// The volume in logical record order, as all other rules read it. What has not an
/// image's length is left as it is.
pub fn logical<'a>(geometry: &Geometry, lent: &'a [u8]) -> Cow<'a, [u8]> {
    if !geometry.is_floppy() || lent.len() != IMAGE_BYTES {
        return Cow::Borrowed(lent);
    }
    Cow::Owned((0..geometry.records()).flat_map(|q| lent[start(q)..][..RECORD].iter().copied()).collect())
}

/// The records of the volume go back to their places in the image. "The reserved
/// tracks and the last six logical records never change."
pub fn lay_back(image: &mut [u8], volume: &[u8]) {
    for (q, record) in volume.chunks(RECORD).enumerate() {
        image[start(q)..][..RECORD].copy_from_slice(record);
    }
}
