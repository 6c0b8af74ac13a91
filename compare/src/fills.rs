//! Generated jobs with other fill words, through the program under test and this
//! evaluator. What an unmarked run says of them has to hold.

use crate::answer::{Answer, Outcome};
use crate::fill_tally::{FillTally, Rerun};
use crate::follow::Settings;
use crate::job::Job;
use crate::limits::{same, told};
use crate::reader::Trouble;
use crate::rng::Rng;
use crate::run::{accept, follow, follow_soon};
use crate::settle::BUDGET;
use crate::target::Target;
use crate::terms::{Terms, EVALUATIONS};
use crate::tree::Code;

const CARRY: u64 = 1;
const OVERFLOW: u64 = 1 << 11;

/// A fill word's name, and the word from the job's own and one drawn by chance.
type Pick = (&'static str, fn(u64, u64) -> u64);

pub const FILLS: [Pick; 7] = [
    ("0", |_, _| 0),
    ("2^64-1", |_, _| u64::MAX),
    ("complement", |fill, _| !fill),
    ("other carry", |fill, _| fill ^ CARRY),
    ("other overflow", |fill, _| fill ^ OVERFLOW),
    ("other carry and overflow", |fill, _| {
        fill ^ CARRY ^ OVERFLOW
    }),
    ("any", |_, drawn| drawn),
];

/// So many of the other fill words, or fewer where one is the job's own.
fn drawn(fill: u64, count: usize, rng: &mut Rng) -> Vec<(&'static str, u64)> {
    let mut left = FILLS.to_vec();
    let mut picks: Vec<(&'static str, u64)> = Vec::new();
    for _ in 0..count {
        let (name, pick) = left.swap_remove(rng.below(left.len()));
        picks.push((name, pick(fill, rng.word())));
    }
    picks.retain(|(_, other)| *other != fill);
    picks
}

/// What is said of an unmarked run under another fill word: all is the same, but
/// that open flags are that word's. Other bits of the flags may be anything.
pub fn follows_from(unmarked: &Outcome, fill: u64, other: &Outcome) -> bool {
    let mut expected = unmarked.clone();
    if let (Some((end, _)), Some((seen, _))) = (&mut expected.end, &other.end) {
        let watch = unmarked.watch;
        for (bit, open) in [(CARRY, watch.carry_open), (OVERFLOW, watch.overflow_open)] {
            let from = if open { fill } else { end.flags };
            end.flags = end.flags & !bit | from & bit;
        }
        let both = CARRY | OVERFLOW;
        end.flags = end.flags & both | seen.flags & !both;
    }
    expected == *other
}

/// A job that is run again with other fill words.
pub struct Rerunning<'a> {
    pub job: &'a Job,
    pub accepted: &'a Result<Code, Trouble>,
    pub terms: Terms,
}

/// Runs a job by both evaluations, under the largest limit and under one that
/// stops it, and each of these with other fill words.
pub fn compare(
    job: &Job,
    rng: &mut Rng,
    target: &mut dyn Target,
    tally: &mut FillTally,
) -> Result<(), String> {
    let accepted = accept(job);
    let mut marks = Vec::new();
    for evaluation in EVALUATIONS {
        let on = |terms| Rerunning {
            job,
            accepted: &accepted,
            terms,
        };
        let unlimited = on(evaluation.unlimited());
        let own = match unlimited.run(target, tally)? {
            Some(own) => own,
            None => return Ok(()),
        };
        unlimited.again(&own, rng, target, tally)?;
        marks.push(own.watch.mark.is_some());
        if let Some(below) = rng.word().checked_rem(own.steps) {
            let last = match own.answer {
                Answer::Fault(..) => own.steps,
                _ => own.steps - 1,
            };
            let limit = rng.pick(&[below, below, last]);
            let limited = on(evaluation.limited(limit));
            if let Some(own) = limited.run(target, tally)? {
                limited.again(&own, rng, target, tally)?;
            }
        }
    }
    tally.by_both(&marks);
    Ok(())
}

impl Rerunning<'_> {
    /// By the job's own fill word. None where the program under test takes no
    /// terms.
    pub fn run(
        &self,
        target: &mut dyn Target,
        tally: &mut FillTally,
    ) -> Result<Option<Outcome>, String> {
        let Some(theirs) = target.run(self.job, self.terms) else {
            tally.not_taken += 1;
            return Ok(None);
        };
        let code = match self.accepted {
            Ok(code) => code,
            Err(trouble) => {
                let own = Outcome::refused(*trouble);
                same(self.terms, &own, theirs)?;
                return Ok(Some(own));
            }
        };
        let settings = Settings::new(self.job.fill, self.terms);
        let followed = follow(self.job, code, u64::from(self.job.fuel), settings);
        let followed = followed.map_err(|_| "no budget was set")?;
        same(self.terms, &followed.outcome, theirs)?;
        tally.ran(self.terms.evaluation, code, &followed);
        Ok(Some(followed.outcome))
    }

    /// With two or three other fill words; of a marked run, of which nothing is
    /// said, with none or one or two.
    fn again(
        &self,
        own: &Outcome,
        rng: &mut Rng,
        target: &mut dyn Target,
        tally: &mut FillTally,
    ) -> Result<(), String> {
        let count = match own.watch.mark {
            None => 2 + rng.below(2),
            Some(_) => rng.below(3),
        };
        for (name, fill) in drawn(self.job.fill, count, rng) {
            if self.with(fill, own, target, tally)? {
                tally.drew(self.terms.evaluation, name);
            }
        }
        Ok(())
    }

    /// With another fill word; `own` is the outcome with the job's. Tells whether
    /// it was run: one that hangs on the fill word may go on for too long.
    pub fn with(
        &self,
        fill: u64,
        own: &Outcome,
        target: &mut dyn Target,
        tally: &mut FillTally,
    ) -> Result<bool, String> {
        let mut job = self.job.clone();
        job.fill = fill;
        let unmarked = own.watch.mark.is_none();
        let Some(own_again) = self.own_with(&job) else {
            tally.too_long += 1;
            return match unmarked {
                true => Err(format!(
                    "unmarked, but with fill {fill} it goes on for long"
                )),
                false => Ok(false),
            };
        };
        let theirs = target
            .run(&job, self.terms)
            .ok_or("terms are taken no more")?;
        let named = |what: String| format!("with fill {fill}: {what}");
        match &theirs {
            Ok(again) if unmarked && !follows_from(own, fill, again) => {
                return Err(named(not_following(self.terms, own, again)));
            }
            _ => {}
        }
        same(self.terms, &own_again, theirs).map_err(named)?;
        tally.reran(&Rerun {
            evaluation: self.terms.evaluation,
            fills: [self.job.fill, fill],
            before: own,
            after: &own_again,
        });
        Ok(true)
    }

    /// None where it goes on for too long, as it may where it hangs on the fill word.
    fn own_with(&self, job: &Job) -> Option<Outcome> {
        let code = match self.accepted {
            Ok(code) => code,
            Err(trouble) => return Some(Outcome::refused(*trouble)),
        };
        let settings = Settings {
            budget: BUDGET,
            ..Settings::new(job.fill, self.terms)
        };
        let followed = follow_soon(job, code, u64::from(job.fuel), settings);
        followed.ok().map(|followed| followed.outcome)
    }
}

fn not_following(terms: Terms, unmarked: &Outcome, other: &Outcome) -> String {
    let (before, after) = (told(unmarked), told(other));
    format!("{terms}, unmarked:\n{before}program under test, with that fill:\n{after}")
}

#[cfg(test)]
#[path = "fills_tests.rs"]
mod tests;
