//! Systematic jobs that are asked for their least fuel, through the program under
//! test and this evaluator, by both evaluations: the kernels of `loops.rs` with every
//! cap up to two above it and under every limit that stops them, and all the other
//! jobs, also those that stand beside the set, with caps and limits near what makes it.

use super::{described, loops, overflows, watch};
use crate::caps::{ask, Search};
use crate::job::{parse, Job};
use crate::least::{Least, Reach, Tries};
use crate::least_checks::Fuelled;
use crate::least_tally::LeastTally;
use crate::reader::Trouble;
use crate::run::accept;
use crate::target::{Target, NO_LEAST_FUEL};
use crate::terms::{Terms, EVALUATIONS};
use std::collections::BTreeSet;

/// How many jobs were compared, searches made for them, and reports compared.
pub struct FuelCompared {
    pub kernels: usize,
    pub others: usize,
    pub searches: u64,
    pub reports: u64,
}

/// How thoroughly a job is gone through: how far fuel is tried for it, and with which
/// caps and limits. `turn` is the job's number.
struct Plan {
    reach: Reach,
    caps: fn(tries: &Tries, turn: usize) -> BTreeSet<u32>,
    limits: fn(tries: &Tries) -> BTreeSet<u64>,
}

const EVERY: Plan = Plan {
    reach: Reach {
        fuel: 310,
        budget: 200_000,
    },
    caps: every_cap,
    limits: every_limit,
};

const NEAR: Plan = Plan {
    reach: Reach {
        fuel: 40,
        budget: 5_000,
    },
    caps: near_caps,
    limits: near_limits,
};

/// Of a larger least fuel, or of more steps, not all that is below is taken.
const MOST: u32 = 40;
/// Caps and limits for what only a step limit ends.
const FEW: u32 = 6;

fn every_cap(tries: &Tries, _: usize) -> BTreeSet<u32> {
    let Some(least) = tries.found() else {
        return (0..FEW).collect();
    };
    let mut caps: BTreeSet<u32> = (0..=least + 2).collect();
    if least > MOST {
        caps.retain(|cap| *cap <= 2 || cap + 2 >= least);
    }
    caps.extend([1 << 31, u32::MAX]);
    caps
}

fn near_caps(tries: &Tries, turn: usize) -> BTreeSet<u32> {
    let Some(least) = tries.found() else {
        return BTreeSet::from([0, 1, turn as u32 % FEW]);
    };
    let large = [least + 1, 1 << 31, u32::MAX][turn % 3];
    BTreeSet::from([0, least.saturating_sub(1), least, large])
}

/// Of the run with the least fuel, and of the one with one less, which ends at the
/// test that makes it.
fn steps_of(tries: &Tries) -> Option<(u64, Option<u64>)> {
    tries.found()?;
    let mut runs = tries.tried.iter().rev().map(|run| run.outcome.steps);
    Some((runs.next()?, runs.next()))
}

fn every_limit(tries: &Tries) -> BTreeSet<u64> {
    let Some((steps, up_to_test)) = steps_of(tries) else {
        return (0..u64::from(FEW)).collect();
    };
    let mut limits: BTreeSet<u64> = (0..=steps + 1).collect();
    if steps > u64::from(MOST) {
        let test = up_to_test.unwrap_or(0);
        limits.retain(|limit| *limit <= 2 || limit.abs_diff(test) <= 1 || limit + 1 >= steps);
    }
    limits
}

fn near_limits(tries: &Tries) -> BTreeSet<u64> {
    let Some((steps, up_to_test)) = steps_of(tries) else {
        return BTreeSet::from([0, u64::from(FEW)]);
    };
    let limits = [0, steps.saturating_sub(1), steps];
    limits.into_iter().chain(up_to_test).collect()
}

/// Goes on up to the first difference. All has to be there that a batch has to meet,
/// but for the names of caps and limits.
pub fn compare(all: &[Vec<u8>], target: &mut dyn Target) -> Result<FuelCompared, String> {
    let mut tally = LeastTally::default();
    let kernels = loops::jobs();
    let mut others = [overflows::jobs(), watch::jobs()].concat();
    others.extend(all.iter().filter_map(|bytes| parse(bytes).ok()));
    for (plan, jobs) in [(EVERY, &kernels), (NEAR, &others)] {
        for (turn, job) in jobs.iter().enumerate() {
            by_both(job, turn, &plan, target, &mut tally)?;
        }
    }
    let [reports, searches] = tally.compared();
    match tally.missing_ends()[..] {
        [] => Ok(FuelCompared {
            kernels: kernels.len(),
            others: others.len(),
            searches,
            reports,
        }),
        ref missing => Err(format!("never met: {}", missing.join(", "))),
    }
}

fn by_both(
    job: &Job,
    turn: usize,
    plan: &Plan,
    target: &mut dyn Target,
    tally: &mut LeastTally,
) -> Result<(), String> {
    let code = match accept(job) {
        Ok(code) => code,
        Err(trouble) => return refused(job, turn, trouble, target, tally),
    };
    let on = |terms| {
        let fuelled = Fuelled {
            job,
            code: &code,
            terms,
            salt: turn as u64,
        };
        Search::new(fuelled, plan.reach)
    };
    let mut found = Vec::new();
    for evaluation in EVALUATIONS {
        let unlimited = on(evaluation.unlimited());
        with_caps(&unlimited, turn, plan, target, tally)?;
        unlimited.count(&unlimited.tries, tally);
        for limit in (plan.limits)(&unlimited.tries) {
            let limited = on(evaluation.limited(limit));
            with_caps(&limited, turn, plan, target, tally)?;
            limited.count(&unlimited.tries, tally);
        }
        found.push(unlimited.tries.found());
    }
    tally.by_both(&found);
    Ok(())
}

fn refused(
    job: &Job,
    turn: usize,
    trouble: Trouble,
    target: &mut dyn Target,
    tally: &mut LeastTally,
) -> Result<(), String> {
    let (cap, limit) = ([0, 3, u32::MAX][turn % 3], [0, u64::MAX][turn % 2]);
    for evaluation in EVALUATIONS {
        let own = Least::refused(trouble);
        asked(job, cap, evaluation.limited(limit), &own, target, tally)?;
    }
    Ok(())
}

fn with_caps(
    search: &Search,
    turn: usize,
    plan: &Plan,
    target: &mut dyn Target,
    tally: &mut LeastTally,
) -> Result<(), String> {
    let Fuelled { job, terms, .. } = search.fuelled;
    let caps = (plan.caps)(&search.tries, turn);
    for cap in &caps {
        let own = search.report(*cap, caps.last() == Some(cap));
        let own = own.map_err(|what| described(job, &what))?;
        let own = own.ok_or("fuel was not tried so far")?;
        asked(job, *cap, terms, &own, target, tally)?;
    }
    Ok(())
}

fn asked(
    job: &Job,
    cap: u32,
    terms: Terms,
    own: &Least,
    target: &mut dyn Target,
    tally: &mut LeastTally,
) -> Result<(), String> {
    let asked = ask(job, cap, terms, own, target, tally);
    match asked.map_err(|what| described(job, &what))? {
        true => Ok(()),
        false => Err(NO_LEAST_FUEL.to_string()),
    }
}
