//! Generated jobs that are asked for their least fuel, through the program under test
//! and this evaluator, by both evaluations, with and without a step limit. The caps
//! stand around the least fuel.

use crate::job::Job;
use crate::least::{Least, Reach, Report, Tries};
use crate::least_checks::Fuelled;
use crate::least_tally::{LeastTally, Searched};
use crate::limits::{self, alike, LIMITS};
use crate::reader::Trouble;
use crate::rng::Rng;
use crate::run::accept;
use crate::target::Target;
use crate::terms::{Terms, EVALUATIONS};
use crate::tree::Code;

/// Trying takes a run for each fuel, so it does not go far where it finds nothing.
const REACH: Reach = Reach {
    fuel: 16,
    budget: 6_000,
};

/// How many caps are drawn without a step limit, and how many under one.
const DRAWN: [usize; 2] = [2, 1];

/// What a cap is drawn from.
pub struct Known {
    /// The least fuel, if it was found.
    pub least: Option<u32>,
    /// How many fuels were tried, from 0 up.
    pub tried: u32,
    /// The job's.
    pub own: u32,
    /// Any number.
    pub drawn: u32,
}

/// A cap's name, and the cap. With a large one a run may have no end, so it takes a
/// least fuel that was found.
type Pick = (&'static str, fn(&Known) -> Option<u32>);

pub const CAPS: [Pick; 11] = [
    ("0", |_| Some(0)),
    ("1", |_| Some(1)),
    ("2", |_| Some(2)),
    ("any tried", |known| known.drawn.checked_rem(known.tried)),
    ("least-1", |known| known.least?.checked_sub(1)),
    ("least", |known| known.least),
    ("least+1", |known| Some(known.least? + 1)),
    ("some more", |known| {
        Some(known.least? + 2 + known.drawn % 30)
    }),
    ("own fuel", |known| Some(known.own)),
    ("2^31", |known| known.least.map(|_| 1 << 31)),
    ("2^32-1", |known| known.least.map(|_| u32::MAX)),
];

/// A step limit's name, and the limit from the steps up to the loop test that one
/// fuel less than the least is not enough for.
type AtTest = (&'static str, fn(u64) -> Option<u64>);

const AT_TEST: [AtTest; 3] = [
    ("test-1", |steps| steps.checked_sub(1)),
    ("test", Some),
    ("test+1", |steps| steps.checked_add(1)),
];

pub fn limit_names() -> Vec<&'static str> {
    let around = LIMITS.iter().map(|(name, _)| *name);
    around.chain(AT_TEST.map(|(name, _)| name)).collect()
}

/// Around the steps up to the test that makes the least fuel, or around those that are
/// made with it, or with the most that was tried.
fn limits_of(tries: &Tries, rng: &mut Rng) -> Vec<(&'static str, u64)> {
    match &tries.tried[..] {
        [.., before, _] if tries.found().is_some() && rng.percent(50) => {
            let (name, pick) = rng.pick(&AT_TEST);
            let limit = pick(before.outcome.steps);
            limit.map(|limit| (name, limit)).into_iter().collect()
        }
        [.., run] => limits::drawn(&run.outcome, 1, rng),
        [] => Vec::new(),
    }
}

/// Accepted code on some terms, and the fuels that were tried for it.
pub struct Search<'a> {
    pub fuelled: Fuelled<'a>,
    pub tries: Tries,
}

impl<'a> Search<'a> {
    pub fn new(fuelled: Fuelled<'a>, reach: Reach) -> Search<'a> {
        let Fuelled {
            job, code, terms, ..
        } = fuelled;
        let tries = Tries::new(job, code, terms, reach);
        Search { fuelled, tries }
    }

    pub fn count(&self, unlimited: &Tries, tally: &mut LeastTally) {
        tally.searched(&Searched {
            code: self.fuelled.code,
            terms: self.fuelled.terms,
            tries: &self.tries,
            unlimited,
        });
    }

    /// With some caps, as they come. Tells whether a least fuel was compared.
    fn with_drawn_caps(
        &self,
        count: usize,
        rng: &mut Rng,
        target: &mut dyn Target,
        tally: &mut LeastTally,
    ) -> Result<bool, String> {
        let Fuelled { job, terms, .. } = self.fuelled;
        let mut compared = false;
        if let Some(found) = self.tries.found() {
            self.report(found + rng.below(9) as u32, true)?;
        }
        for _ in 0..count {
            let (name, pick) = rng.pick(&CAPS);
            let known = Known {
                least: self.tries.found(),
                tried: self.tries.tried.len() as u32,
                own: job.fuel,
                drawn: rng.word() as u32,
            };
            let Some(cap) = pick(&known) else { continue };
            let Some(own) = self.report(cap, false)? else {
                tally.left_out += 1;
                continue;
            };
            if ask(job, cap, terms, &own, target, tally)? {
                tally.drew_cap(terms.evaluation, name);
                compared |= matches!(own.report, Report::Fuel(_));
            }
        }
        Ok(compared)
    }

    /// This evaluator's report, if it was tried as far as it takes to tell. To check a
    /// least fuel takes all the runs again, so that is only done where it is asked for.
    pub fn report(&self, cap: u32, checked: bool) -> Result<Option<Least>, String> {
        let least = self.tries.least(cap);
        if let Some(least) = &least {
            if checked || matches!(least.report, Report::CapSpent(_)) {
                self.fuelled.check(cap, least)?;
            }
        }
        Ok(least)
    }
}

/// Refuses every report but this evaluator's. Tells whether there is one.
pub fn ask(
    job: &Job,
    cap: u32,
    terms: Terms,
    own: &Least,
    target: &mut dyn Target,
    tally: &mut LeastTally,
) -> Result<bool, String> {
    let Some(theirs) = target.least_fuel(job, cap, terms) else {
        tally.not_taken += 1;
        return Ok(false);
    };
    alike(format!("cap {cap}, {terms}"), own, theirs, Least::told)?;
    tally.asked(terms.evaluation, cap, own);
    Ok(true)
}

/// Asks for the least fuels of a job. What has to hold inside this evaluator is also
/// checked for a program that cannot be asked.
pub fn compare(
    job: &Job,
    salt: u64,
    rng: &mut Rng,
    target: &mut dyn Target,
    tally: &mut LeastTally,
) -> Result<(), String> {
    match accept(job) {
        Ok(code) => accepted(job, &code, salt, rng, target, tally),
        Err(trouble) => refused(job, trouble, rng, target, tally),
    }
}

fn accepted(
    job: &Job,
    code: &Code,
    salt: u64,
    rng: &mut Rng,
    target: &mut dyn Target,
    tally: &mut LeastTally,
) -> Result<(), String> {
    let on = |terms| {
        let fuelled = Fuelled {
            job,
            code,
            terms,
            salt,
        };
        Search::new(fuelled, REACH)
    };
    let mut found = Vec::new();
    for evaluation in EVALUATIONS {
        let unlimited = on(evaluation.unlimited());
        if unlimited.with_drawn_caps(DRAWN[0], rng, target, tally)? {
            unlimited.count(&unlimited.tries, tally);
            found.push(unlimited.tries.found());
        }
        for (name, limit) in limits_of(&unlimited.tries, rng) {
            let limited = on(evaluation.limited(limit));
            if limited.with_drawn_caps(DRAWN[1], rng, target, tally)? {
                limited.count(&unlimited.tries, tally);
                tally.drew_limit(evaluation, name);
            }
        }
    }
    tally.by_both(&found);
    Ok(())
}

/// Whatever the cap and the limit are.
fn refused(
    job: &Job,
    trouble: Trouble,
    rng: &mut Rng,
    target: &mut dyn Target,
    tally: &mut LeastTally,
) -> Result<(), String> {
    let own = Least::refused(trouble);
    for evaluation in EVALUATIONS {
        let cap = rng.pick(&[0, 1, job.fuel, u32::MAX]);
        let limit = rng.pick(&[0, 1, 1 << 32, u64::MAX]);
        ask(job, cap, evaluation.limited(limit), &own, target, tally)?;
    }
    Ok(())
}

#[cfg(test)]
#[path = "caps_tests.rs"]
mod tests;
