//! The table of calls against answers, and the check that every possible pair
//! has occurred and no other.

use std::collections::{BTreeMap, BTreeSet};

use super::pairs::{possible, Door, Row};

/// How often each pair of call and answer occurred at a door.
#[derive(Default)]
pub struct Tally {
    counts: BTreeMap<(Row, u32), u64>,
}

/// User codes that no other call answers with share a column.
const CODES_OF_USERS_ONLY: std::ops::RangeInclusive<u32> = 7..=15;

impl Tally {
    pub fn count(&mut self, row: Row, answer: u32) {
        *self.counts.entry((row, answer)).or_insert(0) += 1;
    }

    pub fn add(&mut self, other: &Tally) {
        for (pair, count) in &other.counts {
            *self.counts.entry(*pair).or_insert(0) += count;
        }
    }

    /// How many possible pairs occurred, and what is wrong with the others, a
    /// line for each call; that one never occurred is wrong where every pair is
    /// asked for.
    pub fn judge(&self, door: Door, every_pair: bool) -> (u64, u64, Vec<String>) {
        let possible = possible(door);
        let occurred: BTreeSet<(Row, u32)> = self.counts.keys().copied().collect();
        let missing: BTreeSet<_> = possible.difference(&occurred).copied().collect();
        let impossible: BTreeSet<_> = occurred.difference(&possible).copied().collect();
        let mut faults = by_row(&impossible, "can't answer, and did,");
        let mut failed = impossible.len();
        if every_pair {
            faults.extend(by_row(&missing, "never answered"));
            failed += missing.len();
        }
        ((possible.len() - missing.len()) as u64, failed as u64, faults)
    }

    /// A row for each call, a column for each answer.
    pub fn print(&self, door: Door) {
        let possible = possible(door);
        let rows: BTreeSet<Row> = possible.iter().map(|(row, _)| *row).collect();
        let columns: BTreeSet<u32> = possible.iter().map(|(_, answer)| column(*answer)).collect();
        print!("{:<7}", format!("{:?}", door));
        for answer in &columns {
            print!(" {:>5}", if column(7) == *answer { "7-15".to_string() } else { answer.to_string() });
        }
        println!();
        for row in rows {
            print!("{:<7}", head(row));
            for answer in &columns {
                print!(" {:>5}", self.cell(&possible, row, *answer));
            }
            println!();
        }
    }

    /// The count, or a full stop where the pair is not possible.
    fn cell(&self, possible: &BTreeSet<(Row, u32)>, row: Row, answer: u32) -> String {
        let counted = self.counts.iter().filter(|((r, a), _)| *r == row && column(*a) == answer);
        let count: u64 = counted.map(|(_, count)| count).sum();
        if count == 0 && !possible.contains(&(row, answer)) {
            ".".to_string()
        } else {
            count.to_string()
        }
    }
}

/// A line for each row: its name, the words, and its answers.
fn by_row(pairs: &BTreeSet<(Row, u32)>, words: &str) -> Vec<String> {
    let rows: BTreeSet<Row> = pairs.iter().map(|(row, _)| *row).collect();
    let line = |row: Row| {
        let of_row = pairs.iter().filter(|(other, _)| *other == row);
        let answers: Vec<String> = of_row.map(|(_, answer)| answer.to_string()).collect();
        format!("{} {} {}", row.name(), words, answers.join(", "))
    };
    rows.into_iter().map(line).collect()
}

fn column(answer: u32) -> u32 {
    if CODES_OF_USERS_ONLY.contains(&answer) {
        *CODES_OF_USERS_ONLY.start()
    } else {
        answer
    }
}

fn head(row: Row) -> String {
    match row {
        Row::LogInEntry => "log_in".to_string(),
        Row::CutEntry => "cut".to_string(),
        Row::FaultEntry => "fault".to_string(),
        Row::FileEntry => "file".to_string(),
        Row::ReplaceEntry => "replace".to_string(),
        Row::WhoEntry => "who".to_string(),
        Row::Function(function) => function.to_string(),
        Row::NotServed => "other".to_string(),
    }
}
