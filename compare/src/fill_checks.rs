//! What has to hold inside this evaluator of the watch of a run, told without the
//! rules of `flags.rs`: by other fill words, and by what was next to be done when
//! the first mark was made.

use crate::answer::{Answer, Outcome, STOPPED};
use crate::fill_tally::open_reader_at;
use crate::fills::follows_from;
use crate::follow::{Mode, Settings};
use crate::job::Job;
use crate::run::{follow, outcome};
use crate::terms::{Evaluation, Terms};
use crate::tree::Code;

/// Accepted code by one of the evaluations.
pub struct Watched<'a> {
    pub job: &'a Job,
    pub code: &'a Code,
    pub evaluation: Evaluation,
    /// Any other fill word.
    pub other: u64,
}

impl Watched<'_> {
    /// The outcome is the one under this limit. Of an unmarked run the complement
    /// tells what is open: just the flags that change with it.
    pub fn check(&self, outcome: &Outcome, limit: u64) -> Result<(), String> {
        self.open_is_fill(outcome)?;
        let Some(mark) = outcome.watch.mark else {
            let terms = self.evaluation.limited(limit);
            self.follows(outcome, terms, !self.job.fill)?;
            return self.follows(outcome, terms, self.other);
        };
        self.first_mark(outcome, mark)
    }

    /// Also of a marked run: where a flag is open, it is the fill word's.
    fn open_is_fill(&self, outcome: &Outcome) -> Result<(), String> {
        let (watch, fill) = (outcome.watch, self.job.fill);
        let open = u64::from(watch.carry_open) | u64::from(watch.overflow_open) << 11;
        let flags = outcome.end.as_ref().map_or(fill, |(end, _)| end.flags);
        match (flags ^ fill) & open {
            0 => Ok(()),
            _ => Err(format!("open, but not as in the fill word: {outcome:?}")),
        }
    }

    /// As no more steps may come of it, more than these are cut short.
    fn follows(&self, unmarked: &Outcome, terms: Terms, fill: u64) -> Result<(), String> {
        let settings = Settings {
            mode: Mode::StopsAtFirst,
            budget: unmarked.steps + 1,
            ..Settings::new(fill, terms)
        };
        let again = follow(self.job, self.code, u64::from(self.job.fuel), settings);
        let again = again.map_err(|_| format!("unmarked, but longer with fill {fill}"))?;
        match follows_from(unmarked, fill, &again.outcome) {
            true => Ok(()),
            false => Err(format!("unmarked, fill {fill}: {:?}", again.outcome)),
        }
    }

    /// There is a number of steps with which the run is unmarked, and marked with
    /// one more. With that number it stops at the mark, where a reader of an open
    /// flag comes next.
    fn first_mark(&self, outcome: &Outcome, mark: usize) -> Result<(), String> {
        let (mut unmarked, mut marked) = (0, outcome.steps);
        while marked - unmarked > 1 {
            let middle = unmarked + (marked - unmarked) / 2;
            match self.within(middle).watch.mark {
                None => unmarked = middle,
                Some(_) => marked = middle,
            }
        }
        let (before, behind) = (self.within(unmarked), self.within(marked));
        let stopped = before.answer == Answer::Stopped(STOPPED, mark);
        let reads = open_reader_at(self.code, mark, before.watch).is_some();
        let marks = (before.watch.mark, behind.watch.mark);
        if !stopped || !reads || marks != (None, Some(mark)) {
            return Err(format!("marked at {mark} behind {before:?}"));
        }
        self.check(&before, unmarked)
    }

    fn within(&self, limit: u64) -> Outcome {
        let settings = Settings {
            mode: Mode::StopsAtFirst,
            ..Settings::new(self.job.fill, self.evaluation.limited(limit))
        };
        outcome(self.job, self.code, settings)
    }
}

#[cfg(test)]
#[path = "fill_checks_tests.rs"]
mod tests;
