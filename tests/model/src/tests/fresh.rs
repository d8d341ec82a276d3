//! A fresh disk by hand: B 1,024, T 8, D 1; every byte of block b is b.

use crate::doors::fresh::fresh_copy;
use crate::paper::geometry::Geometry;

const EMPTY: u8 = 0xE5;

/// An entry of user 0: the file's first letter, extent, rc, and the blocks in
/// places 0 and 2.
fn entry(first: u8, ex: u8, rc: u8, b: u8, c: u8) -> Vec<u8> {
    let mut bytes = vec![0; 32];
    bytes[1..12].copy_from_slice(b"SIGLA   TXT");
    bytes[1] = first;
    (bytes[12], bytes[15], bytes[16], bytes[18]) = (ex, rc, b, c);
    bytes
}

fn disk(entries: &[Vec<u8>], blocks: [u8; 7]) -> Vec<u8> {
    let mut bytes = entries.concat();
    bytes.resize(1024, EMPTY);
    blocks.iter().for_each(|&b| bytes.extend([b; 1024]));
    bytes
}

/// The second extent of S.. in slot 0, its first in slot 3, C.. between them, an
/// erased entry; blocks 1 and 6 are free.
fn worn() -> Vec<u8> {
    let mut gone = entry(b'S', 5, 9, 1, 6);
    gone[0] = EMPTY;
    disk(
        &[entry(b'S', 1, 4, 5, 0), gone, entry(b'C', 0, 21, 3, 2), entry(b'S', 0, 128, 7, 4)],
        [1, 2, 3, 4, 5, 6, 7],
    )
}

#[test]
fn a_worn_disk() {
    let fresh = disk(
        &[entry(b'S', 0, 128, 1, 2), entry(b'S', 1, 4, 3, 0), entry(b'C', 0, 21, 4, 5)],
        [7, 4, 5, 3, 2, EMPTY, EMPTY],
    );
    let mut second = vec![0xAA; 8192];
    assert_eq!(fresh_copy(Geometry::new(1024, 8, 1), &worn(), &mut second), 2 << 16);
    assert_eq!(second, fresh);
    let mut again = vec![0x55; 8192];
    assert_eq!(fresh_copy(Geometry::new(1024, 8, 1), &fresh, &mut again), 2 << 16);
    assert_eq!(again, fresh);
}

#[test]
fn refused_in_order() {
    let good = Geometry::new(1024, 8, 1);
    let mut twice = worn();
    twice[2 * 32 + 18] = 5;
    for (geometry, first, length, answer) in [
        (Geometry::new(1024, 8, 8), &worn()[1..], 7, 32),
        (good, &worn()[1..], 7, 33),
        (good, &twice[..], 7, 36 + (2 << 16)),
        (good, &worn()[..], 8191, 33),
    ] {
        let mut second = vec![0xAA; length];
        assert_eq!(fresh_copy(geometry, first, &mut second), answer);
        assert_eq!(second, vec![0xAA; length]);
    }
}
