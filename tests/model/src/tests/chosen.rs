//! Random images, scripts and chains.

use crate::choose::chains::chain;
use crate::choose::cuttings::cutting;
use crate::choose::geometries::{geometry, wild_geometry, wrong_geometry};
use crate::choose::images::{contents, valid_image};
use crate::choose::random::Random;
use crate::choose::scripts::script_bytes;
use crate::choose::tellings::telling;
use crate::doors::chain::{Chain, Step};
use crate::doors::drive_bytes::{drive_bytes, DRIVE_BYTES, WIDE_DRIVE_BYTES};
use crate::doors::script::Script;
use crate::paper::geometry::MOST_BYTES;
use crate::paper::inspection::lowest_bad_slot;

#[test]
fn valid_images_are_accepted() {
    for number in 0..300 {
        let mut r = Random::new(77, number);
        let geometry = geometry(&mut r);
        assert!(geometry.within_rules());
        let contents = contents(&mut r);
        let volume = valid_image(&mut r, geometry, contents);
        assert_eq!(volume.len(), geometry.volume_bytes());
        assert_eq!(lowest_bad_slot(&geometry, &volume), None);
    }
}

#[test]
fn wrong_geometries_are_wrong() {
    let mut r = Random::new(78, 0);
    for _ in 0..300 {
        let right = geometry(&mut r);
        assert!(!wrong_geometry(&mut r).within_rules());
        assert!(!wild_geometry(&mut r, &right).within_rules());
    }
}

#[test]
fn scripts_are_repeatable_and_read_back() {
    for number in 0..40 {
        let bytes = script_bytes(5, number);
        assert_eq!(bytes, script_bytes(5, number));
        let script = Script::decode(&bytes);
        if !script.bad {
            assert_eq!(script.encode(), bytes);
        }
    }
}

#[test]
fn chains_are_repeatable_and_read_back() {
    for number in 0..40 {
        for choose in [chain, telling, cutting] {
            let chosen = choose(5, number);
            assert_eq!(chosen, choose(5, number));
            let bytes = chosen.encode();
            assert_eq!(Chain::decode(&bytes), Some(chosen));
            assert_eq!(Chain::decode(&bytes[..bytes.len() - 1]), None);
        }
    }
}

/// Which geometries the log-ins of chains ask for, and which drives are lent.
#[test]
fn wide_volumes_and_drives_occur() {
    let mut wide = 0;
    let mut lawful_largest = 0;
    let mut small_blocks = 0;
    let mut too_many_blocks = 0;
    let mut too_many_bytes = 0;
    let mut other_width = 0;
    for number in 0..1500 {
        let chain = chain(6, number);
        let mut drive = chain.drive.len();
        for step in &chain.steps {
            match step {
                Step::Drive(bytes) => drive = bytes.len(),
                Step::LogIn(geometry) => {
                    let bytes = geometry.blocks as u64 * geometry.block_bytes as u64;
                    let is_block = [2048, 4096].contains(&geometry.block_bytes);
                    let is_directory = (1..=16).contains(&geometry.directory_blocks);
                    let but_for_one = is_directory && geometry.is_wide();
                    wide += u32::from(geometry.within_rules() && geometry.is_wide());
                    lawful_largest += u32::from(geometry.within_rules() && bytes == MOST_BYTES);
                    small_blocks +=
                        u32::from(but_for_one && geometry.blocks <= 4096 && geometry.block_bytes == 1024);
                    too_many_blocks += u32::from(but_for_one && is_block && geometry.blocks > 4096);
                    too_many_bytes +=
                        u32::from(but_for_one && is_block && geometry.blocks <= 4096 && bytes > MOST_BYTES);
                    let lengths = [DRIVE_BYTES, WIDE_DRIVE_BYTES];
                    other_width +=
                        u32::from(lengths.contains(&drive) && drive != drive_bytes(geometry.blocks));
                }
                _ => {}
            }
        }
    }
    let counts = [wide, lawful_largest, small_blocks, too_many_blocks, too_many_bytes, other_width];
    assert!(counts.iter().all(|&count| count >= 2), "{:?}", counts);
}
