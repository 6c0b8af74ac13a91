//! A systematic set of short jobs: every instruction, operand kind, role,
//! comparison, fault and refusal, and the edges of words, fuel and addresses,
//! each in a job of its own or beside others of its group. Jobs about scales are
//! stored beside the set. Sums, kernels that go by their overflow and kernels about
//! the watch and about loops stand beside it too, and it is stored without them.

mod addresses;
mod comparisons;
mod counts;
mod evaluations;
mod faults;
mod flags;
mod fuel;
mod fuelled;
mod lanes;
mod limited;
mod loops;
mod overflows;
mod refusals;
mod roles;
mod scale_orders;
mod scales;
mod stage;
mod steps;
mod sums;
mod watch;
mod watched;
mod wild;
mod wild_forms;
mod words;

use crate::answer::render;
use crate::batch::{hex, own_answer};
use crate::job::Job;
use crate::reader::Rule;
use crate::run::is_scale_refused;
use crate::store::Record;
use crate::tally::Tally;
use crate::target::Target;
use std::collections::BTreeSet;

pub use evaluations::Compared;
pub use fuelled::FuelCompared;
pub use sums::stored as stored_sums;
pub use watched::WatchCompared;

/// The groups of the set, with scales as the rule has them.
fn groups(rule: Rule) -> Vec<Vec<u8>> {
    let mut jobs = roles::jobs(rule);
    jobs.extend(comparisons::jobs(rule));
    jobs.extend(faults::jobs(rule));
    jobs.extend(fuel::jobs());
    jobs.extend(addresses::jobs(rule));
    jobs.extend(words::jobs());
    jobs.extend(lanes::jobs());
    jobs.extend(flags::jobs());
    let mut bytes: Vec<Vec<u8>> = jobs.iter().map(Job::to_bytes).collect();
    bytes.extend(refusals::jobs());
    bytes.extend(counts::jobs(rule).iter().map(Job::to_bytes));
    bytes.extend(wild::jobs(rule).iter().map(Job::to_bytes));
    bytes.extend(steps::jobs().iter().map(Job::to_bytes));
    each_once(bytes)
}

/// Groups meet, so some jobs come twice.
fn each_once(mut jobs: Vec<Vec<u8>>) -> Vec<Vec<u8>> {
    let mut met = BTreeSet::new();
    jobs.retain(|job| met.insert(job.clone()));
    jobs
}

/// What is left of last year's set, and behind it the jobs that take over from
/// those which are refused today.
fn jobs() -> Vec<Vec<u8>> {
    let mut jobs = groups(Rule::LastYear);
    jobs.retain(|job| !is_scale_refused(job));
    jobs.extend(groups(Rule::Today));
    each_once(jobs)
}

/// What last year's set had, and today's has not.
pub fn moved() -> Vec<Vec<u8>> {
    let mut jobs = groups(Rule::LastYear);
    jobs.retain(|job| is_scale_refused(job));
    jobs
}

/// The set, and the jobs about scales.
fn all_jobs() -> Vec<Vec<u8>> {
    each_once([jobs(), scales::jobs()].concat())
}

/// What is told of a job, behind its bytes.
fn described(job: &Job, what: &str) -> String {
    format!("{}\n{what}", hex(&job.to_bytes()))
}

/// The systematic set, and the jobs about scales.
pub struct Records {
    pub systematic: Vec<Record>,
    pub scales: Vec<Record>,
}

/// Both with this evaluator's texts. Every class of answer and every instruction
/// has to be there, and all that a batch has to meet of scales.
pub fn records() -> Result<Records, String> {
    let mut tally = Tally::default();
    let systematic = answered(jobs(), &mut tally)?;
    let scales = answered(scales::jobs(), &mut tally)?;
    match [tally.missing(), tally.scales.missing()].concat()[..] {
        [] => Ok(Records { systematic, scales }),
        ref missing => Err(format!("never met: {}", missing.join(", "))),
    }
}

fn answered(jobs: Vec<Vec<u8>>, tally: &mut Tally) -> Result<Vec<Record>, String> {
    let mut records = Vec::new();
    for job in jobs {
        let own = own_answer(Rule::Today, &job, 0, tally)?;
        tally.add(&own.answer);
        let text = render(&own);
        records.push(Record { job, text });
    }
    Ok(records)
}

/// Runs pairs of a job and a step limit through a program under test, and gives
/// their number.
pub fn limited(target: &mut dyn Target) -> Result<usize, String> {
    limited::compare(&all_jobs(), target)
}

/// Runs sums, kernels that go by their overflow, and the whole set by the
/// evaluations.
pub fn sums(target: &mut dyn Target) -> Result<Compared, String> {
    evaluations::compare(&all_jobs(), target)
}

/// Runs kernels about the watch, and the whole set, with several fill words.
pub fn watched(target: &mut dyn Target) -> Result<WatchCompared, String> {
    watched::compare(&all_jobs(), target)
}

/// Asks for the least fuel of all kernels, those about loops above all, and of the set.
pub fn fuelled(target: &mut dyn Target) -> Result<FuelCompared, String> {
    fuelled::compare(&all_jobs(), target)
}

#[cfg(test)]
mod tests {
    use super::{is_scale_refused, Records, Rule};
    use crate::checks::limit_holds;
    use crate::follow::Settings;
    use crate::job::parse;
    use crate::run::{accept, answer};
    use crate::store::as_bytes;
    use crate::target::Own;
    use crate::terms::Evaluation::Base;

    #[test]
    fn every_class_is_met() {
        let Records { systematic, scales } = super::records().unwrap();
        assert!(systematic.len() > 1_800 && scales.len() > 1_100);
        assert!(as_bytes(&systematic).len() < 3 << 19);
        assert!(as_bytes(&scales).len() < 600_000);
    }

    /// All of `steps.rs`, at the end, none of them dropped as a copy.
    #[test]
    fn jobs_of_steps_come_last() {
        let own = super::steps::jobs();
        assert_eq!(own.len(), 79);
        let own: Vec<Vec<u8>> = own.iter().map(super::Job::to_bytes).collect();
        for rule in [Rule::Today, Rule::LastYear] {
            assert!(super::groups(rule).ends_with(&own));
        }
    }

    /// A job that is moved has one in its place, and nothing of last year's is lost:
    /// what stays stands first, in its order.
    #[test]
    fn as_many_come_as_go() {
        let (last_year, moved, jobs) =
            (super::groups(Rule::LastYear), super::moved(), super::jobs());
        assert_eq!(
            (last_year.len(), moved.len(), jobs.len()),
            (1_865, 205, 1_865)
        );
        let stay = last_year.iter().filter(|job| !moved.contains(job));
        assert!(stay.eq(&jobs[..1_660]));
        assert!(jobs.iter().all(|job| !is_scale_refused(job)));
    }

    #[test]
    fn every_kind_of_stop_is_met() {
        let pairs = super::limited(&mut Own).unwrap();
        assert!((300..=450).contains(&pairs));
    }

    /// Every kind of sum is met, and without the other jobs too.
    #[test]
    fn sums_by_both_evaluations() {
        let compared = super::sums(&mut Own).unwrap();
        assert_eq!((compared.rows, compared.kernels), (5_376, 306));
        assert!((2_000..=3_000).contains(&compared.pairs));
        assert!(compared.others > 1_800);
        let alone = super::evaluations::compare(&[], &mut Own).unwrap();
        assert_eq!((alone.rows, alone.others), (5_376, 0));
    }

    /// All that a batch has to meet of the watch is met, without the other jobs too.
    #[test]
    fn jobs_with_several_fill_words() {
        let compared = super::watched(&mut Own).unwrap();
        assert_eq!(compared.kernels, 2_014);
        assert!((16_000..=17_000).contains(&compared.pairs));
        assert!(compared.others > 1_800);
        assert!(compared.reruns > 60_000 && compared.claimed > 38_000);
        let alone = super::watched::compare(&[], &mut Own).unwrap();
        assert_eq!((alone.kernels, alone.others), (2_014, 0));
    }

    /// All that a batch has to meet of least fuels is met; but for refusals, without the
    /// set too.
    #[test]
    fn least_fuels() {
        let compared = super::fuelled(&mut Own).unwrap();
        assert_eq!(compared.kernels, 56);
        assert!(compared.others > 306 + 2_014 + 1_800);
        assert!(compared.searches > 20_000 && compared.reports > 60_000);
        let alone = super::fuelled::compare(&[], &mut Own).err().unwrap();
        let refused = ["base", "board"].map(|name| {
            let refused = format!("{name}: refused for");
            format!("{refused} code, {refused} cells")
        });
        assert_eq!(alone, format!("never met: {}", refused.join(", ")));
    }

    /// None of the jobs of `steps.rs` is refused, and they are not enough alone.
    #[test]
    fn a_kind_that_is_not_met_is_told() {
        let why = super::limited::compare(&[], &mut Own).unwrap_err();
        assert_eq!(why, "never met: refused");
    }

    /// Every limit up to the steps and one beyond, for all the jobs that run.
    #[test]
    fn every_limit_holds() {
        for bytes in super::jobs() {
            let Ok(job) = parse(&bytes) else { continue };
            let Ok(code) = accept(&job) else { continue };
            let unlimited = answer(&job, Base.unlimited());
            for limit in 0..=unlimited.steps + 1 {
                let settings = Settings::new(job.fill, Base.limited(limit));
                limit_holds(&job, &code, &unlimited, settings).unwrap();
            }
        }
    }
}
