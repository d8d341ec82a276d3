//! Geometries within the rules and outside of them.

use super::random::Random;
use crate::paper::geometry::{Geometry, EIGHT_INCH, FLOPPY, MOST_BYTES};

/// So many of a hundred geometries are wide. Their volumes are large, so that
/// each takes as long as some dozen others.
const WIDE: usize = 12;

/// So many are eight-inch floppies, or straight volumes of the same numbers.
const FLOPPIES: usize = 7;

/// Within the rules; small mostly, some at the limits, some wide, some floppies.
pub fn geometry(r: &mut Random) -> Geometry {
    match r.below(100) {
        at if at < WIDE => wide_geometry(r),
        at if at < WIDE + FLOPPIES => r.pick(&[FLOPPY, FLOPPY, FLOPPY, FLOPPY, FLOPPY, FLOPPY.straight()]),
        _ => narrow_geometry(r),
    }
}

/// From T 257 on: mostly not far above, some at the limits.
pub fn wide_geometry(r: &mut Random) -> Geometry {
    let block_bytes = r.pick(&[2048, 2048, 4096]);
    let most = MOST_BYTES as usize / block_bytes as usize;
    let blocks = match r.below(100) {
        0..=19 => 257,
        20..=49 => r.between(258, 330),
        50..=59 => r.pick(&[511, 512, 513]),
        60..=93 => r.between(331, 700),
        94 => r.pick(&[1023, 1024, 1025, 1280]),
        95 => r.between(257, most),
        96 => most - 1,
        _ => most,
    };
    let directory_blocks = r.pick(&[1, 1, 1, 1, 2, 2, 3, 15, 16, 16]);
    Geometry::new(block_bytes, blocks as u32, directory_blocks)
}

fn narrow_geometry(r: &mut Random) -> Geometry {
    let block_bytes = r.pick(&[1024, 2048, 4096]);
    let (blocks, directory_blocks) = match r.below(100) {
        0..=69 => few_blocks(r),
        70..=79 => {
            let blocks = r.between(4, 14);
            (blocks, r.between(1, blocks - 1))
        }
        80..=87 => (r.between(17, 40), r.between(1, 3)),
        88..=90 => (2, 1),
        91..=93 => (17, 16),
        94..=95 => (r.between(17, 24), 16),
        96 => (256, 1),
        97 => (256, 16),
        98 => (255, r.pick(&[1, 2, 16])),
        _ => (r.between(41, 254), r.between(1, 16)),
    };
    Geometry::new(block_bytes, blocks as u32, directory_blocks as u32)
}

fn few_blocks(r: &mut Random) -> (usize, usize) {
    let blocks = r.between(2, 12).max(r.between(2, 12));
    (blocks, r.between(1, 2.min(blocks - 1)))
}

/// Outside the rules, in numbers of 16 bits, D and the placing of 8; often by one.
pub fn wrong_geometry(r: &mut Random) -> Geometry {
    let mut wrong = geometry(r);
    while wrong.within_rules() {
        match r.below(20) {
            0..=1 => wrong.block_bytes = r.pick(&[512, 8192, 512, 8192, 3072, 0]),
            2 => wrong.block_bytes = r.pick(&[1, 128, 1023, 1025, 16384, 32768]),
            3..=4 => wrong.blocks = r.pick(&[0, 1, 1, 4097, 4352, 8192, 65535]),
            5 | 15 => wrong = Geometry { block_bytes: 4096, blocks: r.pick(&[2049, 2050, 4096]), ..wrong },
            12..=14 => {
                wrong = Geometry { block_bytes: 1024, blocks: r.pick(&[257, 258, 511, 4096]), ..wrong }
            }
            6 => wrong.directory_blocks = 0,
            7 => wrong = Geometry { blocks: wrong.blocks.max(18), directory_blocks: 17, ..wrong },
            8 => wrong.directory_blocks = wrong.blocks.min(255),
            9 => wrong.directory_blocks = (wrong.blocks + 1).min(255),
            16 => wrong.placing = EIGHT_INCH,
            17 => wrong.placing = r.pick(&[2, 3, 128, 255]),
            18..=19 => wrong = nearly_floppy(r),
            10 => wrong = Geometry::new(0, 0, 0),
            _ => wrong.block_bytes = r.below(65536) as u32,
        }
    }
    wrong
}

/// The floppy but for one number, or of another placing.
fn nearly_floppy(r: &mut Random) -> Geometry {
    match r.below(4) {
        0 => Geometry { block_bytes: r.pick(&[2048, 4096, 1023]), ..FLOPPY },
        1 => Geometry { blocks: r.pick(&[242, 244, 256, 257]), ..FLOPPY },
        2 => Geometry { directory_blocks: r.pick(&[1, 3, 16]), ..FLOPPY },
        _ => Geometry { placing: r.pick(&[2, 255]), ..FLOPPY },
    }
}

/// Outside the rules, in numbers that may be beyond 16 bits: as given to
/// `churawel_log_in`.
pub fn wild_geometry(r: &mut Random, right: &Geometry) -> Geometry {
    let mut wild = *right;
    match r.below(10) {
        0 => wild.block_bytes += 65536,
        1 => wild.blocks += 65536,
        2 => wild.directory_blocks += 65536,
        3 => wild.blocks = r.pick(&[u32::MAX, 0x8000_0000, 0]),
        4 => wild.block_bytes = r.pick(&[u32::MAX, 0x8000_0400, 0x0100_0000, 0]),
        5 => wild.placing += r.pick(&[2, 256, 65536, 0x8000_0000]),
        _ => wild = wrong_geometry(r),
    }
    wild
}

/// Another geometry for a drive: of the same volume length or not, of the same
/// width or not, within the rules or not.
pub fn other_geometry(r: &mut Random, right: &Geometry) -> Geometry {
    let Geometry { block_bytes, blocks, directory_blocks, placing } = *right;
    match r.below(7) {
        0 => Geometry::new(block_bytes, blocks, r.between(1, 17) as u32),
        1 => Geometry::new(block_bytes * 2, blocks / 2, 1),
        2 => Geometry::new(block_bytes / 2, blocks * 2, directory_blocks),
        3 => wrong_geometry(r),
        4 => Geometry { placing: 1 - placing.min(1), ..*right },
        5 => FLOPPY,
        _ => geometry(r),
    }
}
