//! Systematic jobs by both evaluations, through the program under test and this
//! evaluator: the rows of `sums.rs`, the kernels of `overflows.rs`, these also
//! under every limit that stops them, and all the others on the board.

use super::limited::{at_every_step, run_pairs};
use super::{described, overflows, sums};
use crate::board_tally::BoardTally;
use crate::checks::{checked_answer, only_sums_differ};
use crate::job::{parse, Job};
use crate::limits::same;
use crate::run::answer;
use crate::target::{Target, NO_TERMS};
use crate::terms::Evaluation::{self, Base, Board};
use crate::terms::EVALUATIONS;

/// How many runs were compared.
pub struct Compared {
    pub rows: usize,
    pub kernels: usize,
    pub pairs: usize,
    pub others: usize,
}

/// Goes on up to the first difference. Every kind of sum that a batch has to
/// meet has to be there, and every way to end otherwise than by the base.
pub fn compare(all: &[Vec<u8>], target: &mut dyn Target) -> Result<Compared, String> {
    let mut tally = BoardTally::default();
    let rows = sums::rows();
    for row in &rows {
        run(&row.job(), row.evaluation, target, &mut tally)?;
    }
    let kernels = overflows::jobs();
    let mut pairs = Vec::new();
    for evaluation in EVALUATIONS {
        for job in &kernels {
            run(job, evaluation, target, &mut tally)?;
        }
        pairs.extend(at_every_step(&kernels, evaluation));
    }
    run_pairs(&pairs, target, &mut tally.limits)?;
    let others: Vec<Job> = all.iter().filter_map(|bytes| parse(bytes).ok()).collect();
    for job in &others {
        run(job, Board, target, &mut tally)?;
    }
    match tally.missing_ends()[..] {
        [] => Ok(Compared {
            rows: rows.len(),
            kernels: kernels.len(),
            pairs: pairs.len(),
            others: others.len(),
        }),
        ref missing => Err(format!("never met: {}", missing.join(", "))),
    }
}

/// Under the largest limit.
fn run(
    job: &Job,
    evaluation: Evaluation,
    target: &mut dyn Target,
    tally: &mut BoardTally,
) -> Result<(), String> {
    let named = |what: String| described(job, &what);
    let (own, sums) = checked_answer(job, evaluation, 0).map_err(named)?;
    let terms = evaluation.unlimited();
    let theirs = target.run(job, terms).ok_or(NO_TERMS)?;
    same(terms, &own, theirs).map_err(named)?;
    if evaluation == Board {
        let base = answer(job, Base.unlimited());
        only_sums_differ(&base, &own, &sums).map_err(named)?;
        tally.add(&base, &own, &sums);
    }
    Ok(())
}
