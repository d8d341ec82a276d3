//! Fresh disks at the seam: the answer and every byte of both volumes are
//! compared, and of each copy is asked what request (xiv) demands.

use super::archive::Archive;
use super::cuts::present;
use super::differences::{bytes_differ, numbers_differ};
use crate::choose::copies::copy;
use crate::choose::random::Random;
use crate::doors::fresh::fresh_copy;
use crate::paper::floppy::logical;
use crate::paper::geometry::Geometry;
use crate::paper::held::Way;
use crate::paper::inspection;

/// What is wrong with a copy, if anything is: "Each file has the same records
/// present with the same bytes, the copy passes inspection, has as many free
/// blocks, and copying the copy gives the same bytes."
fn first_fault(geometry: &Geometry, worn: &[u8], fresh: &[u8], noise: Vec<u8>) -> Option<String> {
    let of = |volume| inspection::log_in(*geometry, volume, Way::Plain);
    let ((_, free, _), (number, free_now, _)) = (of(worn), of(fresh));
    if number != 0 {
        return Some("the copy does not pass inspection".to_string());
    }
    if free != free_now {
        return Some(format!("{} blocks are free, and {} on the copy", free, free_now));
    }
    let straight = geometry.straight();
    let (old, new) = (logical(geometry, worn), logical(geometry, fresh));
    if present(&straight, &old) != present(&straight, &new) {
        return Some("a file has other records or other bytes".to_string());
    }
    let mut again = noise;
    fresh_copy(*geometry, fresh, &mut again);
    bytes_differ("copy of the copy", &logical(geometry, &again), &new)
}

/// The random copy of this seed and number: the first difference, if there is one,
/// and otherwise the number answered.
fn compare(seed: u64, number: u64, seam: &Archive) -> Result<u32, String> {
    let mut random = Random::new(seed, number);
    let (geometry, first, second) = copy(&mut random);
    let (mut model, mut other) = (second.clone(), second.clone());
    let answer = fresh_copy(geometry, &first, &mut model);
    let got = seam.fresh_copy(geometry, &first, &mut other)?;
    let difference = numbers_differ("answer", got % 65536, answer % 65536)
        .or_else(|| numbers_differ("value", got / 65536, answer / 65536))
        .or_else(|| bytes_differ("second volume", &other, &model));
    let fault = || match answer % 65536 {
        0 => first_fault(&geometry, &first, &model, random.bytes(second.len())),
        _ => bytes_differ("second volume of a refused copy", &model, &second),
    };
    match difference.or_else(fault) {
        Some(what) => Err(what),
        None => Ok(answer % 65536),
    }
}

/// Each of these numbers must have occurred.
const ANSWERS: [u32; 4] = [0, 32, 33, 36];

/// So many copies; how many passed and failed.
pub fn run(seed: u64, count: u64, seam: &Archive) -> (u64, u64) {
    let (mut passed, mut failed) = (0, 0);
    let mut occurred = Vec::new();
    for number in 0..count {
        match compare(seed, number, seam) {
            Ok(answer) => {
                passed += 1;
                occurred.push(answer);
            }
            Err(what) => {
                failed += 1;
                println!("FAILED copy {} of seed {} at the seam: {}", number, seed, what);
                println!("       once more: tests/model/run copies {} {}", seed, number + 1);
            }
        }
    }
    println!("{} fresh disks passed at the seam", passed);
    for answer in ANSWERS.into_iter().filter(|answer| !occurred.contains(answer)) {
        failed += 1;
        println!("FAILED copies: {} never occurred", answer);
    }
    (passed, failed)
}
