//! Generated jobs under step limits, through the program under test and this
//! evaluator. The limits stand around the steps that the run makes without one.

use crate::answer::{render, Answer, Outcome};
use crate::follow::Settings;
use crate::job::Job;
use crate::limit_tally::{LimitTally, Met};
use crate::rng::Rng;
use crate::run::{accept, outcome};
use crate::target::Target;
use crate::terms::{Evaluation, Terms, LARGEST_LIMIT};
use std::fmt::Display;

/// How many limits are drawn for each job.
const DRAWN: usize = 3;

/// A limit's name, and the limit from the steps made without one and a number
/// drawn by chance.
type Pick = (&'static str, fn(u64, u64) -> Option<u64>);

const OWN: Pick = ("steps", |steps, _| Some(steps));

pub const LIMITS: [Pick; 9] = [
    ("0", |_, _| Some(0)),
    ("1", |_, _| Some(1)),
    ("steps-2", |steps, _| steps.checked_sub(2)),
    ("steps-1", |steps, _| steps.checked_sub(1)),
    OWN,
    ("steps+1", |steps, _| steps.checked_add(1)),
    ("2^63", |_, _| Some(1 << 63)),
    ("2^64-1", |_, _| Some(LARGEST_LIMIT)),
    ("any below steps", |steps, drawn| drawn.checked_rem(steps)),
];

/// So many by chance, or fewer where a short run does not have one; of a run that
/// faults also its own steps, which bring Stopped in place of the fault.
pub fn drawn(unlimited: &Outcome, count: usize, rng: &mut Rng) -> Vec<(&'static str, u64)> {
    let mut picks: Vec<Pick> = (0..count).map(|_| rng.pick(&LIMITS)).collect();
    if let Answer::Fault(..) = unlimited.answer {
        picks.push(OWN);
    }
    let limit = |(name, pick): Pick| Some((name, pick(unlimited.steps, rng.word())?));
    picks.into_iter().filter_map(limit).collect()
}

/// Runs a job under some limits. `unlimited` is its outcome by the same
/// evaluation without one.
pub fn compare(
    job: &Job,
    evaluation: Evaluation,
    unlimited: &Outcome,
    rng: &mut Rng,
    target: &mut dyn Target,
    tally: &mut LimitTally,
) -> Result<(), String> {
    let accepted = accept(job);
    for (name, limit) in drawn(unlimited, DRAWN, rng) {
        let terms = evaluation.limited(limit);
        let Some(theirs) = target.run(job, terms) else {
            tally.not_taken += 1;
            continue;
        };
        let own = match &accepted {
            Ok(code) => outcome(job, code, Settings::new(job.fill, terms)),
            Err(trouble) => Outcome::refused(*trouble),
        };
        same(terms, &own, theirs)?;
        tally.drew(name);
        tally.add(&Met {
            limit,
            limited: &own,
            unlimited,
            code: accepted.as_ref().ok(),
        });
    }
    Ok(())
}

/// Refuses every outcome but this evaluator's.
pub fn same(terms: Terms, own: &Outcome, theirs: Result<Outcome, String>) -> Result<(), String> {
    alike(terms, own, theirs, told)
}

/// Refuses every answer but this evaluator's to what was asked for.
pub fn alike<T: PartialEq>(
    asked: impl Display,
    own: &T,
    theirs: Result<T, String>,
    told: fn(&T) -> String,
) -> Result<(), String> {
    if theirs.as_ref() == Ok(own) {
        return Ok(());
    }
    let theirs = theirs.map_or_else(|why| format!("({why})\n"), |theirs| told(&theirs));
    let own = told(own);
    Err(format!(
        "{asked}, this evaluator:\n{own}program under test:\n{theirs}"
    ))
}

/// The watch, and the steps of a refusal, are not in the text.
pub fn told(outcome: &Outcome) -> String {
    let Outcome { steps, watch, .. } = outcome;
    format!("{}({steps} steps made, {watch})\n", render(outcome))
}

#[cfg(test)]
#[path = "limits_tests.rs"]
mod tests;
