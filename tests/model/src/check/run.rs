//! Many scripts on `replay` and at the seam, and as many chains, tellings,
//! cuttings and columns at the seam.

use std::collections::BTreeMap;
use std::path::Path;
use std::sync::atomic::{AtomicU64, Ordering};
use std::sync::Mutex;
use std::thread;

use super::kept;
use super::pairs::{Door, Row};
use super::program::Program;
use super::table::Tally;
use super::{side_by_side, transcripts, ways};
use crate::choose::chains::{chain, long_chain};
use crate::choose::columns::column;
use crate::choose::cuttings::cutting;
use crate::choose::scripts::script_bytes;
use crate::choose::tellings::telling;
use crate::doors::chain::Chain;
use crate::doors::replay::{expected, Line};
use crate::doors::script::{Script, TOUCH};
use crate::doors::seam::Seam;

/// Scripts are handed to `replay` in pieces of these lengths in turn, so that
/// its reads come back short.
const PIECES: [usize; 4] = [1 << 20, 4096, 1000, 131];

/// So many failures of each comparison are shown and kept as files.
const MOST_SHOWN: usize = 5;

pub struct Plan<'a> {
    pub seed: u64,
    pub scripts: u64,
    pub replay: &'a Program,
    pub seam: &'a dyn Seam,
    /// Where failing scripts, chains, tellings, cuttings and columns are kept.
    pub folder: &'a Path,
    /// Whether a possible pair of call and answer that never occurred is a
    /// failure; of few scripts it is not.
    pub every_pair: bool,
}

/// What is compared for each number.
#[derive(Clone, Copy, PartialEq, Eq, PartialOrd, Ord, Debug)]
enum Comparison {
    OnReplay,
    AtSeam,
    PlainWay,
    Chain,
    Telling,
    Cutting,
    Column,
}

const COMPARISONS: [Comparison; 7] = [
    Comparison::OnReplay,
    Comparison::AtSeam,
    Comparison::PlainWay,
    Comparison::Chain,
    Comparison::Telling,
    Comparison::Cutting,
    Comparison::Column,
];

impl Comparison {
    fn thing(&self) -> &'static str {
        match self {
            Comparison::Chain => kept::CHAIN,
            Comparison::Telling => kept::TELLING,
            Comparison::Cutting => kept::CUTTING,
            Comparison::Column => kept::COLUMN,
            _ => kept::SCRIPT,
        }
    }

    fn place(&self) -> &'static str {
        match self {
            Comparison::OnReplay => "on replay",
            Comparison::PlainWay => "in the plain way",
            _ => "at the seam",
        }
    }
}

struct Failure {
    number: u64,
    comparison: Comparison,
    what: String,
}

/// What came out of some numbers.
#[derive(Default)]
struct Results {
    passed: BTreeMap<Comparison, u64>,
    failures: Vec<Failure>,
    replay: Tally,
    seam: Tally,
}

/// Runs everything and prints what came out; how many passed and failed.
pub fn run(plan: &Plan) -> (u64, u64) {
    let results = all_numbers(plan);
    let mut passed: u64 = results.passed.values().sum();
    let mut failed = results.failures.len() as u64;
    for (door, tally) in [(Door::Replay, &results.replay), (Door::Seam, &results.seam)] {
        tally.print(door);
        let (occurred, wrong, faults) = tally.judge(door, plan.every_pair);
        println!("{} possible pairs occurred\n", occurred);
        for fault in &faults {
            println!("FAILED {:?}: {}", door, fault);
        }
        passed += occurred;
        failed += wrong;
    }
    for comparison in COMPARISONS {
        let count = results.passed.get(&comparison).unwrap_or(&0);
        println!("{} {}s passed {}", count, comparison.thing(), comparison.place());
        let failures = results.failures.iter().filter(|failure| failure.comparison == comparison);
        print_failures(plan, &failures.collect::<Vec<_>>());
    }
    (passed, failed)
}

fn print_failures(plan: &Plan, failures: &[&Failure]) {
    for failure in failures.iter().take(MOST_SHOWN) {
        let Failure { number, comparison, what } = failure;
        let (thing, place) = (comparison.thing(), comparison.place());
        println!("FAILED {} {} of seed {} {}: {}", thing, number, plan.seed, place, what);
        match kept::keep(plan.folder, plan.seed, *number, thing) {
            Ok(path) => println!("       once more: tests/model/run again {}", path.display()),
            Err(error) => println!("       it could not be kept: {}", error),
        }
    }
    if failures.len() > MOST_SHOWN {
        println!("FAILED and not shown: {} more", failures.len() - MOST_SHOWN);
    }
}

/// The numbers are shared out among as many workers as there are processors.
fn all_numbers(plan: &Plan) -> Results {
    let next = AtomicU64::new(0);
    let all = Mutex::new(Results::default());
    let workers = thread::available_parallelism().map_or(1, |number| number.get());
    thread::scope(|scope| {
        for worker in 0..workers {
            let (next, all) = (&next, &all);
            scope.spawn(move || {
                let mut results = Results::default();
                loop {
                    let number = next.fetch_add(1, Ordering::Relaxed);
                    if number >= plan.scripts {
                        break;
                    }
                    kept::note_work(plan.folder, worker, plan.seed, number);
                    results.compare(plan, number);
                }
                all.lock().expect("no worker panics").add(results);
            });
        }
    });
    let mut results = all.into_inner().expect("no worker panics");
    results.failures.sort_by_key(|failure| failure.number);
    results
}

impl Results {
    fn add(&mut self, other: Results) {
        for (comparison, count) in other.passed {
            *self.passed.entry(comparison).or_insert(0) += count;
        }
        self.failures.extend(other.failures);
        self.replay.add(&other.replay);
        self.seam.add(&other.seam);
    }

    fn note(&mut self, number: u64, comparison: Comparison, fault: Option<String>) {
        match fault {
            None => *self.passed.entry(comparison).or_insert(0) += 1,
            Some(what) => self.failures.push(Failure { number, comparison, what }),
        }
    }

    /// The script, the chain, the telling, the cutting and the column of this number.
    fn compare(&mut self, plan: &Plan, number: u64) {
        let bytes = script_bytes(plan.seed, number);
        let script = Script::decode(&bytes);
        let (text, lines) = expected(&script);
        self.count(&lines);
        let piece = PIECES[number as usize % PIECES.len()];
        self.note(number, Comparison::OnReplay, replay_fault(plan.replay, &bytes, piece, &text));
        let fault = seam_fault(&Chain::of_script(&script), plan.seam, &mut self.seam);
        self.note(number, Comparison::AtSeam, fault);
        if !script.has_touch() {
            self.note(number, Comparison::PlainWay, ways::first_fault(&script));
        }
        let fault = seam_fault(&chain(plan.seed, number), plan.seam, &mut self.seam);
        self.note(number, Comparison::Chain, fault);
        let fault = seam_fault(&telling(plan.seed, number), plan.seam, &mut self.seam);
        self.note(number, Comparison::Telling, fault);
        let fault = seam_fault(&cutting(plan.seed, number), plan.seam, &mut self.seam);
        self.note(number, Comparison::Cutting, fault);
        let fault = seam_fault(&column(plan.seed, number), plan.seam, &mut self.seam);
        self.note(number, Comparison::Column, fault);
    }

    fn count(&mut self, lines: &[Line]) {
        for line in lines.iter().filter(|line| line.function != TOUCH) {
            self.replay.count(Row::Function(line.function), line.answer);
        }
    }
}

/// One long run of calls at the seam; what differs, if anything does.
pub fn run_long(seed: u64, calls: usize, seam: &dyn Seam, folder: &Path) -> Result<(), String> {
    let chain = long_chain(seed, calls);
    let Some(fault) = seam_fault(&chain, seam, &mut Tally::default()) else {
        return Ok(());
    };
    let path = folder.join(format!("{}-long.{}", seed, kept::CHAIN));
    std::fs::write(&path, chain.encode()).map_err(|error| error.to_string())?;
    Err(format!("{}\n       once more: tests/model/run again {}", fault, path.display()))
}

fn replay_fault(replay: &Program, bytes: &[u8], piece: usize, text: &str) -> Option<String> {
    match replay.transcript(bytes, piece) {
        Ok(got) => transcripts::first_difference(&got, text).map(|difference| difference.what),
        Err(fault) => Some(fault),
    }
}

fn seam_fault(chain: &Chain, seam: &dyn Seam, tally: &mut Tally) -> Option<String> {
    side_by_side::first_difference(chain, seam, tally).map(|difference| difference.what)
}
