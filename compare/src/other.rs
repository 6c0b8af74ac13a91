//! Programs under test that are wrong on purpose, for the tests of comparisons.

use crate::answer::Outcome;
use crate::job::Job;
use crate::least::Least;
use crate::run::answer;
use crate::target::{Own, Target};
use crate::terms::Terms;

pub type OnTerms = fn(&Job, Terms) -> Option<Result<Outcome, String>>;

/// This evaluator, but for what it says on terms of the caller's.
pub struct Other(pub OnTerms);

impl Target for Other {
    fn answer(&mut self, job: &[u8]) -> Result<Vec<u8>, String> {
        Own.answer(job)
    }

    fn run(&mut self, job: &Job, terms: Terms) -> Option<Result<Outcome, String>> {
        (self.0)(job, terms)
    }
}

pub type OnCap = fn(&Job, u32, Terms) -> Option<Result<Least, String>>;

/// This evaluator, but for what it reports as the least fuel.
pub struct OtherLeast(pub OnCap);

impl Target for OtherLeast {
    fn answer(&mut self, job: &[u8]) -> Result<Vec<u8>, String> {
        Own.answer(job)
    }

    fn run(&mut self, job: &Job, terms: Terms) -> Option<Result<Outcome, String>> {
        Own.run(job, terms)
    }

    fn least_fuel(&mut self, job: &Job, cap: u32, terms: Terms) -> Option<Result<Least, String>> {
        (self.0)(job, cap, terms)
    }
}

/// The outcome as it should be.
pub fn right(job: &Job, terms: Terms) -> Option<Result<Outcome, String>> {
    changed(job, terms, |_| {})
}

pub fn changed(
    job: &Job,
    terms: Terms,
    change: fn(&mut Outcome),
) -> Option<Result<Outcome, String>> {
    let mut outcome = answer(job, terms);
    change(&mut outcome);
    Some(Ok(outcome))
}

pub fn flip_flags(outcome: &mut Outcome) {
    if let Some((end, _)) = &mut outcome.end {
        end.flags ^= 1;
    }
}

pub fn forget_cells(outcome: &mut Outcome) {
    if let Some((_, cells)) = &mut outcome.end {
        cells.clear();
    }
}
