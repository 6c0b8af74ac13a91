//! Systematic jobs with several fill words, through the program under test and
//! this evaluator: the kernels of `watch.rs` by both evaluations, also under every
//! limit that stops them, and all the other jobs.

use super::limited::{at_every_step, Pair};
use super::{described, watch};
use crate::checks::checked_answer;
use crate::fill_tally::FillTally;
use crate::fills::Rerunning;
use crate::job::{parse, Job};
use crate::run::accept;
use crate::target::{Target, NO_TERMS};
use crate::terms::{Terms, EVALUATIONS};

/// The first fill word of every kernel, and the others that it is run again with.
const FIRST: u64 = 0;
const OTHERS: [u64; 5] = [1, 2048, 2049, u64::MAX, 1 << 62 | 10];

/// How many jobs were compared by each evaluation, how many pairs of a kernel and
/// a limit, how many runs with other fill words, and of how many of these
/// something is claimed.
pub struct WatchCompared {
    pub kernels: usize,
    pub pairs: usize,
    pub others: usize,
    pub reruns: u64,
    pub claimed: u64,
}

/// Goes on up to the first difference. All has to be there that a batch has to
/// meet, but for the names of the fill words.
pub fn compare(all: &[Vec<u8>], target: &mut dyn Target) -> Result<WatchCompared, String> {
    let mut tally = FillTally::default();
    let kernels: Vec<Job> = watch::jobs().into_iter().map(|j| j.fill(FIRST)).collect();
    for job in &kernels {
        by_both(job, &OTHERS, target, &mut tally)?;
    }
    let mut pairs: Vec<Pair> = Vec::new();
    for evaluation in EVALUATIONS {
        pairs.extend(at_every_step(&kernels, evaluation));
    }
    for (turn, (job, terms)) in pairs.iter().enumerate() {
        let fills = [OTHERS[turn % 2], OTHERS[2 + turn % 3]];
        run(job, *terms, &fills, target, &mut tally)?;
    }
    let others: Vec<Job> = all.iter().filter_map(|bytes| parse(bytes).ok()).collect();
    for job in &others {
        by_both(job, &[!job.fill, job.fill ^ 2049], target, &mut tally)?;
    }
    let [_, reruns, claimed] = tally.compared();
    match tally.missing_ends()[..] {
        [] => Ok(WatchCompared {
            kernels: kernels.len(),
            pairs: pairs.len(),
            others: others.len(),
            reruns,
            claimed,
        }),
        ref missing => Err(format!("never met: {}", missing.join(", "))),
    }
}

/// Under the largest limit, with the checks inside this evaluator.
fn by_both(
    job: &Job,
    fills: &[u64],
    target: &mut dyn Target,
    tally: &mut FillTally,
) -> Result<(), String> {
    let mut marks = Vec::new();
    for evaluation in EVALUATIONS {
        let checked = checked_answer(job, evaluation, 0);
        checked.map_err(|why| described(job, &why))?;
        marks.push(run(job, evaluation.unlimited(), fills, target, tally)?);
    }
    tally.by_both(&marks);
    Ok(())
}

/// With the job's fill word and with each of these. Tells whether it is marked.
fn run(
    job: &Job,
    terms: Terms,
    fills: &[u64],
    target: &mut dyn Target,
    tally: &mut FillTally,
) -> Result<bool, String> {
    let named = |what: String| described(job, &what);
    let accepted = accept(job);
    let rerunning = Rerunning {
        job,
        accepted: &accepted,
        terms,
    };
    let own = rerunning.run(target, tally).map_err(named)?;
    let own = own.ok_or(NO_TERMS)?;
    for fill in fills {
        let again = rerunning.with(*fill, &own, target, tally);
        again.map_err(named)?;
    }
    Ok(own.watch.mark.is_some())
}
