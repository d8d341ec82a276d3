//! That few random scripts, chains, tellings, cuttings and columns make every possible pair of
//! call and answer occur, and no other, on the model itself.

use super::mistakes::Mistaken;
use crate::check::pairs::{Door, Row};
use crate::check::side_by_side;
use crate::check::table::Tally;
use crate::choose::chains::chain;
use crate::choose::columns::column;
use crate::choose::cuttings::cutting;
use crate::choose::scripts::script_bytes;
use crate::choose::tellings::telling;
use crate::doors::chain::Chain;
use crate::doors::replay::expected;
use crate::doors::script::{Script, TOUCH};

/// So many scripts and chains of a seed are to be enough.
const SCRIPTS: u64 = 300;
const SEEDS: [u64; 3] = [1, 2, 3];

/// For each seed the tally that the scripts and chains of its numbers make.
fn all_pairs_occur(door: Door, count: fn(&mut Tally, u64, u64)) {
    for seed in SEEDS {
        let mut tally = Tally::default();
        for number in 0..SCRIPTS {
            count(&mut tally, seed, number);
        }
        tally.print(door);
        assert_eq!(tally.judge(door, true).2, Vec::<String>::new(), "seed {}", seed);
    }
}

#[test]
fn all_pairs_occur_through_replay() {
    all_pairs_occur(Door::Replay, |tally, seed, number| {
        let (_, lines) = expected(&Script::decode(&script_bytes(seed, number)));
        for line in lines.iter().filter(|line| line.function != TOUCH) {
            tally.count(Row::Function(line.function), line.answer);
        }
    });
}

#[test]
fn all_pairs_occur_at_the_seam() {
    all_pairs_occur(Door::Seam, |tally, seed, number| {
        let script = Chain::of_script(&Script::decode(&script_bytes(seed, number)));
        let (cutting, column) = (cutting(seed, number), column(seed, number));
        for chain in [script, chain(seed, number), telling(seed, number), cutting, column] {
            let difference = side_by_side::first_difference(&chain, &Mistaken::NOT_AT_ALL, tally);
            assert_eq!(difference, None);
        }
    });
}
