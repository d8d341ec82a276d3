//! "Volume and entry", the sizes: block size B, number of blocks T, directory
//! blocks D, and what follows from them; with "The hard disk of the second
//! machine" (02, xi), whose volumes have more than 256 blocks and are called wide.

use super::floppy::IMAGE_BYTES;

/// Bytes of a record.
pub const RECORD: usize = 128;
/// Bytes of a slot.
pub const SLOT: usize = 32;
/// Records of an extent.
pub const RECORDS_AN_EXTENT: u32 = 128;
/// Bytes of an entry's map.
pub const MAP: usize = 16;
/// Volumes with more blocks are wide.
pub const NARROW_BLOCKS: u32 = 256;
/// "At most 8 MiB."
pub const MOST_BYTES: u64 = 8 * 1024 * 1024;
/// How records lie in the volume: in their order, or as on an eight-inch floppy.
pub const STRAIGHT: u32 = 0;
pub const EIGHT_INCH: u32 = 1;
/// "1,024-byte blocks, T 243, D 2".
pub const FLOPPY: Geometry =
    Geometry { block_bytes: 1024, blocks: 243, directory_blocks: 2, placing: EIGHT_INCH };

#[derive(Clone, Copy, PartialEq, Eq, Debug)]
pub struct Geometry {
    /// B
    pub block_bytes: u32,
    /// T
    pub blocks: u32,
    /// D
    pub directory_blocks: u32,
    pub placing: u32,
}

impl Geometry {
    /// With records in their order.
    pub fn new(block_bytes: u32, blocks: u32, directory_blocks: u32) -> Geometry {
        Geometry { block_bytes, blocks, directory_blocks, placing: STRAIGHT }
    }

    pub fn is_floppy(&self) -> bool {
        self.placing == EIGHT_INCH
    }

    /// The geometry of the unskewed volume.
    pub fn straight(&self) -> Geometry {
        Geometry { placing: STRAIGHT, ..*self }
    }

    /// B is 1,024, 2,048 or 4,096 and T is 2 to 256; or, "from T 257 to 4,096",
    /// B is "2,048 or 4,096 and at most 8 MiB" are T times B. D is 1 to 16 and
    /// below T. The eight-inch placing is lawful with the floppy's numbers alone.
    pub fn within_rules(&self) -> bool {
        if self.placing != STRAIGHT {
            return *self == FLOPPY;
        }
        let narrow = [1024, 2048, 4096].contains(&self.block_bytes) && (2..=256).contains(&self.blocks);
        let wide = [2048, 4096].contains(&self.block_bytes)
            && (257..=4096).contains(&self.blocks)
            && self.blocks as u64 * self.block_bytes as u64 <= MOST_BYTES;
        (narrow || wide) && (1..=16).contains(&self.directory_blocks) && self.directory_blocks < self.blocks
    }

    /// Whether there are more than 256 blocks.
    pub fn is_wide(&self) -> bool {
        self.blocks > NARROW_BLOCKS
    }

    /// The bytes of a block number in an entry: "block numbers in entries take two
    /// bytes" where the volume is wide.
    pub fn number_bytes(&self) -> usize {
        if self.is_wide() {
            2
        } else {
            1
        }
    }

    /// The block numbers of an entry: sixteen, or "eight to an entry".
    pub fn places(&self) -> usize {
        MAP / self.number_bytes()
    }

    /// T times B, but an image has also its reserved tracks and six records more.
    pub fn volume_bytes(&self) -> usize {
        if self.is_floppy() {
            return IMAGE_BYTES;
        }
        self.blocks as usize * self.block_bytes as usize
    }

    /// Logical records of the volume.
    pub fn records(&self) -> usize {
        self.blocks as usize * self.records_a_block() as usize
    }

    /// R = B/128.
    pub fn records_a_block(&self) -> u32 {
        self.block_bytes / 128
    }

    /// X = B/1,024, or, where the volume is wide, "an entry has B/2,048 extents".
    pub fn extents_an_entry(&self) -> u32 {
        self.block_bytes / if self.is_wide() { 2048 } else { 1024 }
    }

    /// The directory's 32-byte pieces.
    pub fn slots(&self) -> usize {
        self.directory_blocks as usize * self.block_bytes as usize / SLOT
    }

    /// The group of an extent: E div X.
    pub fn group(&self, extent: u32) -> u32 {
        extent / self.extents_an_entry()
    }

    /// The map place of record n: (n mod 128X) div R.
    pub fn place(&self, n: u32) -> usize {
        ((n % (128 * self.extents_an_entry())) / self.records_a_block()) as usize
    }

    /// From D to T-1.
    pub fn is_data_block(&self, number: u16) -> bool {
        (self.directory_blocks..self.blocks).contains(&(number as u32))
    }

    /// Where the bytes of record n begin if it lies in this block: block times
    /// B plus (n mod R) times 128.
    pub fn record_begins(&self, block: u16, n: u32) -> usize {
        block as usize * self.block_bytes as usize + (n % self.records_a_block()) as usize * RECORD
    }
}

/// The extent in which record n lies.
pub fn extent_of_record(n: u32) -> u32 {
    n / RECORDS_AN_EXTENT
}
