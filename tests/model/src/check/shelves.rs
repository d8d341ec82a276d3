//! Shelves at the seam: after every volume the answer and every lent byte are
//! compared.

use super::archive::Archive;
use super::differences::{bytes_differ, numbers_differ};
use crate::choose::random::Random;
use crate::choose::shelves::{shelf_bytes, volumes};
use crate::doors::shelf::shelf;

/// The random shelf of this seed and number: the first difference, if there is
/// one, and otherwise which numbers were answered.
fn compare(seed: u64, number: u64, seam: &Archive) -> Result<Vec<u32>, String> {
    let mut random = Random::new(seed, number);
    let mut model = shelf_bytes(&mut random);
    let mut other = model.clone();
    let mut answers = Vec::new();
    for (place, (geometry, volume)) in volumes(&mut random).into_iter().enumerate() {
        let answer = shelf(geometry, &volume, &mut model);
        let got = seam.shelf(geometry, &volume, &mut other)?;
        let difference = numbers_differ("answer", got % 65536, answer % 65536)
            .or_else(|| numbers_differ("log-in's answer", got / 65536, answer / 65536))
            .or_else(|| bytes_differ("shelf", &other, &model));
        if let Some(what) = difference {
            return Err(format!("volume {}: {}", place, what));
        }
        answers.push(answer);
    }
    Ok(answers)
}

/// Each of 0, 32, 47, and under 0 each answer of log-in, must have occurred.
const ANSWERS: [u32; 6] = [0, 32 << 16, 33 << 16, 36 << 16, 32, 47];

/// So many shelves; how many passed and failed.
pub fn run(seed: u64, count: u64, seam: &Archive) -> (u64, u64) {
    let (mut passed, mut failed) = (0, 0);
    let mut occurred = Vec::new();
    for number in 0..count {
        match compare(seed, number, seam) {
            Ok(answers) => {
                passed += 1;
                occurred.extend(answers);
            }
            Err(what) => {
                failed += 1;
                println!("FAILED shelf {} of seed {} at the seam: {}", number, seed, what);
                println!("       once more: tests/model/run shelves {} {}", seed, number + 1);
            }
        }
    }
    println!("{} shelves passed at the seam", passed);
    for answer in ANSWERS.into_iter().filter(|answer| !occurred.contains(answer)) {
        failed += 1;
        println!("FAILED shelves: {} with log-in's {} never occurred", answer % 65536, answer / 65536);
    }
    (passed, failed)
}
