//! Systematic jobs under step limits: those of `steps.rs` under every limit that
//! stops them, and here and there one of the others under limits near its steps.
//! The program under test and this evaluator both run them.

use super::steps;
use crate::answer::{Answer, Outcome};
use crate::batch::hex;
use crate::checks::limit_holds;
use crate::follow::Settings;
use crate::job::{parse, Job};
use crate::limit_tally::{LimitTally, Met};
use crate::limits::same;
use crate::run::{accept, answer};
use crate::target::{Target, NO_TERMS};
use crate::terms::Evaluation::{self, Base};
use crate::terms::{Terms, LARGEST_LIMIT};
use std::collections::BTreeSet;

/// Longer runs are left out.
const MOST_STEPS: u64 = 12;
/// One of so many is taken: of runs with a step or none, and of longer ones.
const STRIDES: [usize; 2] = [41, 5];

/// A job and the terms that it is run on.
pub type Pair = (Job, Terms);

/// Every limit up to the steps; for every other job also one above them.
pub fn at_every_step(jobs: &[Job], evaluation: Evaluation) -> Vec<Pair> {
    let mut pairs = Vec::new();
    for (turn, job) in jobs.iter().enumerate() {
        let steps = answer(job, evaluation.unlimited()).steps;
        if steps > MOST_STEPS {
            continue;
        }
        let above = [steps + 1, 1 << 63, LARGEST_LIMIT][turn / 2 % 3];
        let limits = (0..=steps).chain((turn % 2 == 1).then_some(above));
        let terms = limits.map(|limit| evaluation.limited(limit));
        pairs.extend(terms.map(|terms| (job.clone(), terms)));
    }
    pairs
}

/// Of the other systematic jobs; the limits take turns.
fn here_and_there(jobs: &[Job]) -> Vec<Pair> {
    let mut pairs = Vec::new();
    let mut seen = [0, 0];
    for job in jobs {
        let Outcome { answer, steps, .. } = answer(job, Base.unlimited());
        if matches!(answer, Answer::Refused(..)) || steps > MOST_STEPS {
            continue;
        }
        let size = usize::from(steps > 1);
        let (turn, skipped) = (seen[size] / STRIDES[size], seen[size] % STRIDES[size]);
        seen[size] += 1;
        if skipped == 0 {
            let limits = [steps.saturating_sub(1), steps, 0, steps + 1];
            pairs.push((job.clone(), Base.limited(limits[turn % 4])));
        }
    }
    pairs
}

/// The first job that the run refuses with each number, under a limit of 0.
fn refused(jobs: &[Job]) -> Vec<Pair> {
    let mut numbers = BTreeSet::new();
    let none = Base.limited(0);
    let mut first = |job: &&Job| match answer(job, none).answer {
        Answer::Refused(number, _) => numbers.insert(number),
        _ => false,
    };
    let jobs = jobs.iter().filter(|job| first(job));
    jobs.map(|job| (job.clone(), none)).collect()
}

fn pairs(all: &[Vec<u8>]) -> Vec<Pair> {
    let steps = steps::jobs();
    let own: BTreeSet<Vec<u8>> = steps.iter().map(Job::to_bytes).collect();
    let others = all.iter().filter(|bytes| !own.contains(*bytes));
    let others: Vec<Job> = others.filter_map(|bytes| parse(bytes).ok()).collect();
    let mut pairs = at_every_step(&steps, Base);
    pairs.extend(here_and_there(&others));
    pairs.extend(refused(&others));
    pairs
}

/// Runs the pairs in turn up to the first difference, and gives their number.
/// Every kind of stop has to be there.
pub fn compare(all: &[Vec<u8>], target: &mut dyn Target) -> Result<usize, String> {
    let mut tally = LimitTally::default();
    let pairs = pairs(all);
    run_pairs(&pairs, target, &mut tally)?;
    match tally.missing_ends()[..] {
        [] => Ok(pairs.len()),
        ref missing => Err(format!("never met: {}", missing.join(", "))),
    }
}

pub fn run_pairs(
    pairs: &[Pair],
    target: &mut dyn Target,
    tally: &mut LimitTally,
) -> Result<(), String> {
    for (index, (job, terms)) in pairs.iter().enumerate() {
        let named = |what: String| describe(index, job, &what);
        let own = checked(job, *terms, tally).map_err(named)?;
        let theirs = target.run(job, *terms).ok_or(NO_TERMS)?;
        same(*terms, &own, theirs).map_err(named)?;
    }
    Ok(())
}

fn describe(index: usize, job: &Job, what: &str) -> String {
    format!("pair {index}:\n{}\n{what}", hex(&job.to_bytes()))
}

/// This evaluator's outcome, with the check inside it.
fn checked(job: &Job, terms: Terms, tally: &mut LimitTally) -> Result<Outcome, String> {
    let unlimited = answer(job, terms.evaluation.unlimited());
    let limited = answer(job, terms);
    let accepted = accept(job);
    if let Ok(code) = &accepted {
        let settings = Settings::new(job.fill, terms);
        let held = limit_holds(job, code, &unlimited, settings);
        held.map_err(|e| format!("inner check: {e}"))?;
    }
    tally.add(&Met {
        limit: terms.limit,
        limited: &limited,
        unlimited: &unlimited,
        code: accepted.as_ref().ok(),
    });
    Ok(limited)
}
