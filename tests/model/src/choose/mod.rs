//! Random images, calls, scripts and chains.
//!
//! | module | what it chooses |
//! |---|---|
//! | `random` | numbers, from a seed |
//! | `geometries`, `pool`, `images` | geometries, names and users, images that log-in accepts |
//! | `alterations` | single alterations that may make an image bad |
//! | `aims` | what a call sees of the volume, and the file and record that it is for |
//! | `control_blocks`, `faults` | control blocks in order, and things put out of order |
//! | `runs` | the next call, in runs of calls that belong together |
//! | `goals` | calls that are aimed at one pair of call and answer |
//! | `scripts`, `bad_scripts` | scripts for both doors |
//! | `drives`, `chains` | wild drives, and chains with them for the seam alone |
//! | `making` | a chain in the making, for the two below |
//! | `cuttings` | chains that cut calls off |
//! | `columns` | chains for the edition desk |
//! | `tellings` | chains that ask why a volume is refused, and for its files |
//! | `shelves` | shelves, and volumes to be put on them |
//! | `copies` | two volumes for a fresh disk |

pub mod aims;
pub mod alterations;
pub mod bad_scripts;
pub mod chains;
pub mod columns;
pub mod control_blocks;
pub mod copies;
pub mod cuttings;
pub mod drives;
pub mod faults;
pub mod geometries;
pub mod goals;
pub mod images;
pub mod making;
pub mod pool;
pub mod random;
pub mod runs;
pub mod scripts;
pub mod shelves;
pub mod tellings;
