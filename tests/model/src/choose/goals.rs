//! Pairs of call and answer as goals, so that rare ones occur in a few hundred
//! scripts too. Each script and chain begins elsewhere in the list of pairs and
//! goes through it; a pair that has occurred there is no goal any more.

use std::collections::BTreeSet;

use super::aims::{aim_outside, View};
use super::control_blocks::control_block;
use super::faults::{finished_with, finished_without};
use super::random::Random;
use super::runs::call_with_faults;
use crate::check::pairs::{possible, Door, Row};
use crate::doors::script::Call;
use crate::paper::calls::{LOG_INS, PROTECT, USER};

/// A function and its answer.
type Pair = (u8, u32);

/// What the model would answer.
pub type Answers<'a> = &'a dyn Fn(&Call) -> u32;

/// So many calls are tried for a goal, and so many goals before one is met.
const TRIES: usize = 24;
const MOST: usize = 4;

/// A script's first goal is so many behind the first one of the script before:
/// a prime, so that some hundred scripts begin everywhere.
const STRIDE: u64 = 113;

/// What only something out of order is refused by.
const BY_FAULTS: [u32; 8] = [34, 46, 35, 42, 39, 45, 40, 6];
const PROTECTED: u32 = 37;
const OUTSIDE: u32 = 41;

pub struct Goals {
    pairs: Vec<Pair>,
    /// Where the next goal stands in the list.
    next: usize,
    seen: BTreeSet<Pair>,
    /// Calls that belong to the last goal, the last one first.
    ready: Vec<Call>,
    /// The goal that the drive has been protected for.
    waiting: Option<Pair>,
}

impl Goals {
    /// The goals of a script (at replay) or a chain (at the seam) of this number.
    pub fn new(door: Door, number: u64) -> Goals {
        let pairs: Vec<Pair> = possible(door).into_iter().filter_map(as_goal).collect();
        let next = (number.wrapping_mul(STRIDE) % pairs.len() as u64) as usize;
        Goals { pairs, next, seen: BTreeSet::new(), ready: Vec::new(), waiting: None }
    }

    pub fn saw(&mut self, function: u8, answer: u32) {
        self.seen.insert((function, answer));
    }

    /// Now and then a call that meets a goal, or one on the way to it.
    pub fn call(&mut self, r: &mut Random, view: &View, answers: Answers) -> Option<Call> {
        if let Some(call) = self.ready.pop() {
            return Some(call);
        }
        if let Some(goal) = self.waiting.take() {
            return met(r, view, answers, goal);
        }
        if r.percent(60) {
            if let Some(call) = self.outside(r, view, answers) {
                return Some(call);
            }
        }
        if !r.percent(25) {
            return None;
        }
        (0..MOST).find_map(|_| self.towards_next(r, view, answers))
    }

    /// A read or write of a record whose block is no data block, where there is
    /// one: such blocks soon are mended or gone.
    fn outside(&self, r: &mut Random, view: &View, answers: Answers) -> Option<Call> {
        let aim = aim_outside(r, view)?;
        let goals = self.pairs.iter().filter(|goal| goal.1 == OUTSIDE && !self.seen.contains(goal));
        let functions: Vec<u8> = goals.map(|goal| goal.0).collect();
        if functions.is_empty() {
            return None;
        }
        let function = r.pick(&functions);
        let control = control_block(r, view, function, aim);
        let call = finished_with(r, function, 0, control, 0);
        (answers(&call) == OUTSIDE).then_some(call)
    }

    /// A call for the next goal, if some tries find one.
    fn towards_next(&mut self, r: &mut Random, view: &View, answers: Answers) -> Option<Call> {
        let goal = self.next_goal();
        match goal {
            (USER, code @ 1..=15) => {
                self.ready = asking_users(r, code as u8, view.user);
                self.ready.pop()
            }
            (_, PROTECTED) => met(r, view, answers, goal).or_else(|| {
                self.waiting = Some(goal);
                Some(finished_without(r, PROTECT, 0))
            }),
            _ => met(r, view, answers, goal),
        }
    }

    fn next_goal(&mut self) -> Pair {
        let count = self.pairs.len();
        let mut places = (0..count).map(|step| (self.next + step) % count);
        let open = places.find(|&place| !self.seen.contains(&self.pairs[place]));
        let place = open.unwrap_or(self.next);
        self.next = (place + 1) % count;
        self.pairs[place]
    }
}

/// The first of some calls that is answered as the goal says.
fn met(r: &mut Random, view: &View, answers: Answers, (function, wanted): Pair) -> Option<Call> {
    let faults: &[usize] = if BY_FAULTS.contains(&wanted) { &[1, 1, 2] } else { &[0] };
    let mut tried = (0..TRIES).map(|_| call_with_faults(r, view, function, faults));
    tried.find(|call| answers(call) == wanted)
}

/// This user and the next ones are set and asked for, then the present one is
/// set again; the last call first.
fn asking_users(r: &mut Random, code: u8, present: u8) -> Vec<Call> {
    let codes = code..=(code + 2).min(15);
    let asked = codes.flat_map(|code| [code, 255]);
    let parameters: Vec<u8> = asked.chain([present]).collect();
    parameters.into_iter().rev().map(|parameter| finished_without(r, USER, parameter)).collect()
}

/// A pair that can be met by choosing a call: no log-in, nor what a closed drive
/// or the volume's length decide.
fn as_goal((row, answer): (Row, u32)) -> Option<Pair> {
    match row {
        Row::Function(function) if LOG_INS.contains(&function) || [32, 33].contains(&answer) => None,
        Row::Function(function) => Some((function, answer)),
        Row::LogInEntry | Row::CutEntry | Row::FaultEntry | Row::FileEntry => None,
        Row::ReplaceEntry | Row::WhoEntry | Row::NotServed => None,
    }
}
