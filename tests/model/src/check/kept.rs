//! Scripts, chains, tellings, cuttings and columns as files, so that one can be run once more.

use std::io;
use std::path::{Path, PathBuf};

use crate::choose::chains::chain;
use crate::choose::columns::column;
use crate::choose::cuttings::cutting;
use crate::choose::scripts::script_bytes;
use crate::choose::tellings::telling;

pub const SCRIPT: &str = "script";
pub const CHAIN: &str = "chain";
pub const TELLING: &str = "telling";
pub const CUTTING: &str = "cutting";
pub const COLUMN: &str = "column";

/// Writes the script, the chain, the telling, the cutting or the column of this seed
/// and number.
pub fn keep(folder: &Path, seed: u64, number: u64, ending: &str) -> io::Result<PathBuf> {
    let path = folder.join(format!("{}-{}.{}", seed, number, ending));
    let bytes = match ending {
        CHAIN => chain(seed, number).encode(),
        TELLING => telling(seed, number).encode(),
        CUTTING => cutting(seed, number).encode(),
        COLUMN => column(seed, number).encode(),
        _ => script_bytes(seed, number),
    };
    std::fs::write(&path, bytes)?;
    Ok(path)
}

/// Leaves a word about the number in hand, for the case that the process dies.
pub fn note_work(folder: &Path, worker: usize, seed: u64, number: u64) {
    let word = format!("{} {}\n", seed, number);
    // Nothing depends on it.
    let _ = std::fs::write(folder.join(format!("at-work-{}", worker)), word);
}
