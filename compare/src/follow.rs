//! What an evaluation is followed with: the settings it goes by, the log of
//! its checks, and what is counted on the way.

use crate::state::{eval_operand, Judged, Located, State};
use crate::sums::SumLog;
use crate::terms::Terms;
use crate::tree::INSTRUCTION_KINDS;
use crate::watch::Reads;
use std::collections::BTreeSet;

#[derive(Clone, Copy, Debug, PartialEq, Eq)]
pub enum Event {
    /// A check failed: the number and the place of the record.
    Failed(u8, usize),
    /// A loop had no fuel: the place of the While.
    Starved(usize),
    /// The step limit was used up: the place of the record that came next.
    /// Only a run without another bad event so far can meet its limit.
    LimitMet(usize),
}

/// Passed checks are only counted; bad events are all kept, the first one
/// with its snapshot.
#[derive(Default)]
pub struct Log {
    pub passed: u64,
    pub bad: Vec<Event>,
    pub before_first: Option<State>,
}

impl Log {
    pub fn note(&mut self, event: Event, before: &State) {
        if self.bad.is_empty() {
            self.before_first = Some(before.clone());
        }
        self.bad.push(event);
    }

    /// Keeps a check of the record at `place`, and tells whether it passed.
    pub fn check(&mut self, judged: Judged, place: usize, before: &State) -> bool {
        match judged {
            Ok(()) => self.passed += 1,
            Err(number) => self.note(Event::Failed(number, place), before),
        }
        judged.is_ok()
    }
}

#[derive(Clone, Copy, Debug, PartialEq, Eq)]
pub enum Mode {
    /// As the source goes.
    RunsOn,
    /// Nothing is followed past the first bad event.
    StopsAtFirst,
}

#[derive(Clone, Copy, Debug)]
pub struct Settings {
    pub fill: u64,
    /// The caller's.
    pub terms: Terms,
    /// The answer of a load that meets no 64-bit cell.
    pub off: u64,
    pub mode: Mode,
    /// Instructions and comparisons that may be followed.
    pub budget: u64,
}

/// An odd word that no generated job holds but by chance.
pub const OFF_MEM64: u64 = 0x6a3d_70b5_19c2_8e4f;

impl Settings {
    pub fn new(fill: u64, terms: Terms) -> Settings {
        Settings {
            fill,
            terms,
            off: OFF_MEM64,
            mode: Mode::RunsOn,
            budget: u64::MAX,
        }
    }
}

/// One evaluation: what it goes by, and what it has shown so far.
pub struct Follow {
    pub settings: Settings,
    pub log: Log,
    /// Instructions and comparisons that were followed: also those whose check
    /// failed and, as the source runs on, those behind a bad event.
    pub followed: u64,
    /// The steps of the answer: what was completed ahead of any bad event.
    pub steps_made: u64,
    /// Reads of open flags; those that count were completed ahead of any bad event.
    pub reads: Reads,
    /// The place of what comes next, and the places of all that made a step.
    next: usize,
    pub completed: BTreeSet<usize>,
    /// How often each instruction was followed, by its number less 1.
    pub met: [u64; INSTRUCTION_KINDS],
    /// The sums that were completed.
    pub sums: SumLog,
    /// The least fuel that a loop test was met with.
    pub least_fuel: u64,
    pub over_budget: bool,
}

/// Why an evaluation hands back no state.
pub enum Stop {
    /// The source's None.
    NoFuel,
    /// This evaluator looked no further (budget, or the first bad event).
    Cut,
}

impl Follow {
    pub fn new(settings: Settings) -> Follow {
        Follow {
            settings,
            log: Log::default(),
            followed: 0,
            steps_made: 0,
            reads: Reads::default(),
            next: 0,
            completed: BTreeSet::new(),
            met: [0; INSTRUCTION_KINDS],
            sums: SumLog::default(),
            least_fuel: u64::MAX,
            over_budget: false,
        }
    }

    pub fn operand(&self, o: Located, s: &State) -> u64 {
        eval_operand(o, s, self.settings.off)
    }

    /// An instruction or comparison comes next, none over the budget. Here the
    /// limit is judged: behind a loop's test of fuel, ahead of the checks.
    pub fn comes_next(&mut self, place: usize, s: &State) -> Result<(), Stop> {
        self.followed += 1;
        self.next = place;
        self.reads.comes_next();
        self.over_budget = self.followed > self.settings.budget;
        if self.over_budget {
            return Err(Stop::Cut);
        }
        if self.log.bad.is_empty() && self.steps_made >= self.settings.terms.limit {
            self.log.note(Event::LimitMet(place), s);
        }
        self.may_go_on()
    }

    /// Its checks are done: a step was made, unless anything bad came before
    /// or just now.
    pub fn is_checked(&mut self) -> Result<(), Stop> {
        self.may_go_on()?;
        if self.log.bad.is_empty() {
            self.steps_made += 1;
            self.completed.insert(self.next);
            self.reads.completes();
        }
        Ok(())
    }

    /// Nothing is followed past a bad event where the mode says so.
    fn may_go_on(&self) -> Result<(), Stop> {
        if self.settings.mode == Mode::StopsAtFirst && !self.log.bad.is_empty() {
            return Err(Stop::Cut);
        }
        Ok(())
    }
}
