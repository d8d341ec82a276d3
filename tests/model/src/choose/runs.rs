//! Choosing the next call: in runs of calls that belong together, mostly on
//! files that the volume has.

use super::aims::{aim, aim_at_file, near_border, Aim, View};
use super::control_blocks::{control_block, show_position};
use super::faults::{finished, finished_with, finished_without};
use super::goals::{Answers, Goals};
use super::random::Random;
use crate::check::pairs::Door;
use crate::doors::script::Call;
use crate::paper::calls::*;
use crate::paper::control::{self, EX};
use crate::paper::names::ANY;

#[derive(Clone, Copy, PartialEq, Eq, Debug)]
enum Run {
    /// Each call by itself.
    Mixed,
    /// Sequential calls with the control block that the last one left.
    Sequential(u8),
    /// Search first, then next, with other calls in between.
    Search,
    /// Make upon make.
    FillDirectory,
    /// Writes in one new place after the other.
    FillDisk(u8),
    /// Calls upon one file that is made read-only first.
    ReadOnly,
    /// A user is set and asked for.
    Users,
    /// Writes in groups that a file lacks, where no slot is empty.
    NewGroup,
}

pub struct Chooser {
    run: Run,
    /// Calls that the run still has.
    left: usize,
    /// The run's first call is still to come.
    fresh: bool,
    /// The control block that a sequential run hands on from call to call.
    handed_on: Vec<u8>,
    /// The last call was one of the sequential run itself.
    hand_on: bool,
    /// The file that the run is about.
    aim: Aim,
    /// Pairs of call and answer that are aimed at between the calls of runs.
    goals: Goals,
    /// The last call was none of the run's.
    aside: bool,
}

impl Chooser {
    /// For a script (at replay) or a chain (at the seam) of this number.
    pub fn new(door: Door, number: u64) -> Chooser {
        Chooser {
            run: Run::Mixed,
            left: 0,
            fresh: false,
            handed_on: Vec::new(),
            hand_on: false,
            aim: Aim { name: [0x41; 11], record: 0 },
            goals: Goals::new(door, number),
            aside: false,
        }
    }

    /// Tells the chooser what the last call answered and left in its control
    /// block. After a refusal a run soon ends. Log-in and the like are no part
    /// of a run, nor are those that stand aside.
    pub fn saw(&mut self, function: u8, answer: u32, control: &[u8]) {
        self.goals.saw(function, answer);
        match self.run {
            _ if self.aside || !CALLS.contains(&function) => {}
            Run::Sequential(_) if self.hand_on && answer == 0 => self.handed_on = control.to_vec(),
            Run::Sequential(_) | Run::FillDisk(_) if answer != 0 => self.left = self.left.min(1),
            Run::FillDirectory | Run::Search if answer > 3 => self.left = self.left.min(2),
            _ => {}
        }
    }

    /// The next call (never a log-in): one of a run, or one for a goal. The
    /// model says what a call would be answered.
    pub fn next(&mut self, r: &mut Random, view: &View, answers: Answers) -> Call {
        if let Some(call) = self.goals.call(r, view, answers) {
            self.aside = true;
            return call;
        }
        self.aside = false;
        if self.left == 0 {
            self.begin_run(r, view);
        }
        self.left -= 1;
        let first = self.fresh;
        self.fresh = false;
        self.hand_on = false;
        match self.run {
            Run::Mixed => mixed(r, view),
            Run::Sequential(function) => self.sequential(r, view, function, first),
            Run::Search => search(r, view, first),
            Run::FillDirectory => aimed(r, view, MAKE),
            Run::FillDisk(function) => self.fill_disk(r, view, function),
            Run::ReadOnly => self.read_only(r, view, first),
            Run::Users => self.users(r, view),
            Run::NewGroup => new_group(r, view),
        }
    }

    /// A call of any function, each as often as the others, for where all of them
    /// are refused alike.
    pub fn any(&mut self, r: &mut Random, view: &View) -> Call {
        self.aside = true;
        let function = r.pick(&CALLS);
        call_with_faults(r, view, function, &[0, 1])
    }

    fn begin_run(&mut self, r: &mut Random, view: &View) {
        let few = view.entries_of_user().len() < 2;
        self.run = r.weighted(&[
            (44, Run::Mixed),
            (14, Run::Sequential(SEQUENTIAL_READ)),
            (14, Run::Sequential(SEQUENTIAL_WRITE)),
            (14, Run::Sequential(READ_SEVERAL)),
            (14, Run::Sequential(WRITE_SEVERAL)),
            (12, Run::Search),
            (if few { 14 } else { 4 }, Run::FillDirectory),
            (3, Run::FillDisk(RANDOM_WRITE)),
            (3, Run::FillDisk(ZERO_FILL_WRITE)),
            (3, Run::ReadOnly),
            (3, Run::Users),
            (if view.is_full() { 20 } else { 0 }, Run::NewGroup),
        ]);
        self.left = match self.run {
            Run::ReadOnly => r.between(2, 6),
            Run::Users => 3,
            _ => r.between(3, 10),
        };
        self.fresh = true;
        let reads = [Run::Sequential(SEQUENTIAL_READ), Run::Sequential(READ_SEVERAL)].contains(&self.run);
        self.aim = aim(r, view, reads);
    }

    fn sequential(&mut self, r: &mut Random, view: &View, function: u8, first: bool) -> Call {
        if !first && r.percent(8) {
            return mixed(r, view);
        }
        self.hand_on = true;
        if first {
            if [SEQUENTIAL_WRITE, WRITE_SEVERAL].contains(&function) || r.percent(25) {
                self.aim.record = near_border(r, &view.geometry, self.aim.record);
            }
            self.handed_on = control_block(r, view, function, self.aim);
            show_position(r, &mut self.handed_on, self.aim.record);
        }
        finished(r, function, 0, self.handed_on.clone())
    }

    fn fill_disk(&mut self, r: &mut Random, view: &View, function: u8) -> Call {
        let mut control = control_block(r, view, function, self.aim);
        control::show_record(&mut control, self.aim.record);
        self.aim.record = (self.aim.record + view.geometry.records_a_block()) % 65536;
        finished(r, function, 0, control)
    }

    /// The attribute is set by the first call and taken away by the last.
    fn read_only(&mut self, r: &mut Random, view: &View, first: bool) -> Call {
        let last = self.left == 0;
        let function = if first || last {
            ATTRIBUTES
        } else {
            r.pick(&[
                DELETE,
                SEQUENTIAL_WRITE,
                RENAME,
                RANDOM_WRITE,
                ZERO_FILL_WRITE,
                WRITE_SEVERAL,
                ATTRIBUTES,
            ])
        };
        let aim = aim_at_file(r, view, self.aim.name);
        let mut control = control_block(r, view, function, aim);
        if first {
            control[9] |= 0x80;
        }
        if last {
            control[9] &= 0x7F;
        }
        finished(r, function, 0, control)
    }

    /// One is set, then asked for, then one that has files is set.
    fn users(&mut self, r: &mut Random, view: &View) -> Call {
        let parameter = match self.left {
            2 => r.below(16) as u8,
            1 => 255,
            _ => view.user_with_files(r),
        };
        finished_without(r, USER, parameter)
    }
}

fn search(r: &mut Random, view: &View, first: bool) -> Call {
    if first {
        let aim = aim(r, view, false);
        let mut control = control_block(r, view, SEARCH_FIRST, aim);
        if r.percent(60) {
            control[1..12].fill(ANY);
            control[EX] = ANY;
        }
        finished(r, SEARCH_FIRST, 0, control)
    } else if r.percent(70) {
        finished_without(r, SEARCH_NEXT, 0)
    } else {
        mixed(r, view)
    }
}

/// A write of a record anywhere: mostly the file has no entry for it.
fn new_group(r: &mut Random, view: &View) -> Call {
    let function = r.pick(&[SEQUENTIAL_WRITE, RANDOM_WRITE, ZERO_FILL_WRITE, WRITE_SEVERAL]);
    let aim = Aim { record: r.below(65536) as u32, ..aim(r, view, false) };
    let control = control_block(r, view, function, aim);
    finished(r, function, 0, control)
}

fn mixed(r: &mut Random, view: &View) -> Call {
    if view.altered_entry().is_some() && r.percent(50) {
        let function = r.pick(&[
            OPEN,
            CLOSE,
            DELETE,
            DELETE,
            SEQUENTIAL_READ,
            SEQUENTIAL_WRITE,
            RENAME,
            ATTRIBUTES,
            RANDOM_READ,
            RANDOM_WRITE,
            RANDOM_WRITE,
            ZERO_FILL_WRITE,
            SIZE,
            READ_SEVERAL,
            WRITE_SEVERAL,
        ]);
        return aimed(r, view, function);
    }
    match any_function(r, view.entries_of_user().is_empty()) {
        USER => {
            let parameter = user_parameter(r, view);
            finished_without(r, USER, parameter)
        }
        function @ (PROTECT | SEARCH_NEXT) => finished_without(r, function, 0),
        function => aimed(r, view, function),
    }
}

/// Where the user has no files, mostly make or another user.
fn any_function(r: &mut Random, no_files: bool) -> u8 {
    r.weighted(&[
        (10, OPEN),
        (7, CLOSE),
        (7, SEARCH_FIRST),
        (6, SEARCH_NEXT),
        (5, DELETE),
        (8, SEQUENTIAL_READ),
        (8, SEQUENTIAL_WRITE),
        (if no_files { 60 } else { 7 }, MAKE),
        (7, RENAME),
        (2, PROTECT),
        (6, ATTRIBUTES),
        (if no_files { 30 } else { 8 }, USER),
        (12, RANDOM_READ),
        (12, RANDOM_WRITE),
        (8, SIZE),
        (6, SET_RANDOM),
        (8, ZERO_FILL_WRITE),
        (8, READ_SEVERAL),
        (8, WRITE_SEVERAL),
    ])
}

/// A call of this function, with one of these numbers of things out of order.
pub fn call_with_faults(r: &mut Random, view: &View, function: u8, faults: &[usize]) -> Call {
    if !is_lent_control(function) {
        let parameter = user_parameter(r, view);
        return finished_without(r, function, parameter);
    }
    let present = r.percent(50);
    let aim = aim(r, view, present);
    let control = control_block(r, view, function, aim);
    let faults = r.pick(faults);
    finished_with(r, function, 0, control, faults)
}

/// A call on some file.
fn aimed(r: &mut Random, view: &View, function: u8) -> Call {
    let aim = aim(r, view, [SEQUENTIAL_READ, RANDOM_READ, READ_SEVERAL].contains(&function));
    let control = control_block(r, view, function, aim);
    finished(r, function, 0, control)
}

fn user_parameter(r: &mut Random, view: &View) -> u8 {
    match r.below(10) {
        0..=4 => view.user_with_files(r),
        5 => r.below(16) as u8,
        6..=8 => 255,
        _ => r.pick(&[16, 17, 229, 253, 254]),
    }
}
