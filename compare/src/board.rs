//! Generated jobs by the board evaluation, through the program under test and
//! this evaluator: under the largest limit, and then under some others.

use crate::answer::Outcome;
use crate::board_tally::BoardTally;
use crate::checks::{checked_answer, only_sums_differ};
use crate::job::Job;
use crate::limits::{self, same};
use crate::rng::Rng;
use crate::target::Target;
use crate::terms::Evaluation::Board;

/// `base` is the job's outcome by the base evaluation. What has to hold inside
/// this evaluator is also checked for a program that takes no terms.
pub fn compare(
    job: &Job,
    base: &Outcome,
    salt: u64,
    rng: &mut Rng,
    target: &mut dyn Target,
    tally: &mut BoardTally,
) -> Result<(), String> {
    let (own, sums) = checked_answer(job, Board, salt)?;
    only_sums_differ(base, &own, &sums)?;
    let terms = Board.unlimited();
    let Some(theirs) = target.run(job, terms) else {
        tally.not_taken += 1;
        return Ok(());
    };
    same(terms, &own, theirs)?;
    tally.add(base, &own, &sums);
    limits::compare(job, Board, &own, rng, target, &mut tally.limits)
}

#[cfg(test)]
#[path = "board_tests.rs"]
mod tests;
