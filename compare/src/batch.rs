//! Generated jobs through the program under test and this evaluator.

use crate::answer::{render, Outcome};
use crate::board;
use crate::caps;
use crate::checks::checked_run;
use crate::fills;
use crate::generate::batch_bytes;
use crate::job::parse;
use crate::limits;
use crate::reader::Rule;
use crate::rng::Rng;
use crate::rules;
use crate::run::{accept_by, Followed};
use crate::tally::Tally;
use crate::target::Target;
use crate::terms::Evaluation::Base;
use std::time::{Duration, Instant};

/// From here on a batch has to meet every answer and number.
pub const FULL: u64 = 4_000;

/// Runs the jobs in turn up to the first difference.
pub fn run(jobs: u64, seed: u64, target: &mut dyn Target) -> Result<Tally, String> {
    let mut tally = Tally::default();
    let mut progress = Progress::new(jobs);
    for index in 0..jobs {
        let bytes = batch_bytes(seed, index);
        let named = |what: String| describe(seed, index, &bytes, &what);
        let own = own_answer(Rule::Today, &bytes, seed ^ index, &mut tally).map_err(named)?;
        let text = render(&own);
        let answer = target.answer(&bytes);
        if answer.as_deref() != Ok(text.as_bytes()) {
            return Err(named(difference(&text, answer)));
        }
        tally.add(&own.answer);
        on_terms(&bytes, &own, seed, index, target, &mut tally).map_err(named)?;
        progress.show(index + 1);
    }
    let missing = missing(&tally);
    if jobs >= FULL && !missing.is_empty() {
        return Err(format!(
            "{}never met: {}",
            tally.report(),
            missing.join(", ")
        ));
    }
    Ok(tally)
}

/// The job by the base evaluation under some limits, on the board, with other fill
/// words, and asked for its least fuel. Bytes that are no job are left out.
fn on_terms(
    bytes: &[u8],
    base: &Outcome,
    seed: u64,
    index: u64,
    target: &mut dyn Target,
    tally: &mut Tally,
) -> Result<(), String> {
    let Ok(job) = parse(bytes) else {
        return Ok(());
    };
    // Another row of numbers than the one that the job was made from.
    let mut rng = Rng::of_job(!seed, index);
    limits::compare(&job, Base, base, &mut rng, target, &mut tally.limits)?;
    let salt = seed ^ index;
    board::compare(&job, base, salt, &mut rng, target, &mut tally.board)?;
    fills::compare(&job, &mut rng, target, &mut tally.fills)?;
    caps::compare(&job, salt, &mut rng, target, &mut tally.least)
}

/// What a batch of some length has to meet and did not.
pub fn missing(tally: &Tally) -> Vec<String> {
    [
        tally.missing(),
        tally.limits.missing(),
        tally.board.missing(),
        tally.fills.missing(),
        tally.least.missing(),
        tally.scales.missing(),
    ]
    .concat()
}

/// This evaluator's outcome as the job program's, with the checks inside it. Last
/// year's rule is held to today's where that one is asked for.
pub fn own_answer(
    rule: Rule,
    bytes: &[u8],
    salt: u64,
    tally: &mut Tally,
) -> Result<Outcome, String> {
    let outcome = checked_answer(rule, bytes, salt, tally)?;
    if rule == Rule::Today {
        rules::agree(bytes, &outcome).map_err(|e| format!("inner check, rules: {e}"))?;
    }
    Ok(outcome)
}

fn checked_answer(
    rule: Rule,
    bytes: &[u8],
    salt: u64,
    tally: &mut Tally,
) -> Result<Outcome, String> {
    let job = match parse(bytes) {
        Ok(job) => job,
        Err(trouble) => return Ok(Outcome::refused(trouble)),
    };
    let code = match accept_by(rule, &job) {
        Ok(code) => code,
        Err(trouble) => {
            let refused = Outcome::refused(trouble);
            tally.scales.refused(&job.code, &refused.answer);
            return Ok(refused);
        }
    };
    if job.to_bytes() != bytes || crate::writer::write(&code) != job.code {
        return Err("writing what was read gives other bytes".to_string());
    }
    let Followed {
        outcome,
        followed,
        met,
        completed,
        ..
    } = checked_run(&job, &code, Base, salt)?;
    tally.scales.ran(&code, &completed);
    tally.followed += followed;
    tally.steps += outcome.steps;
    for (sum, count) in tally.met.iter_mut().zip(met) {
        *sum += count;
    }
    Ok(outcome)
}

pub fn hex(bytes: &[u8]) -> String {
    bytes.iter().map(|b| format!("{b:02x}")).collect()
}

fn describe(seed: u64, index: u64, bytes: &[u8], what: &str) -> String {
    format!("seed {seed}, job {index}:\n{}\n{what}", hex(bytes))
}

fn difference(own: &str, target: Result<Vec<u8>, String>) -> String {
    let theirs = match target {
        Ok(text) => String::from_utf8_lossy(&text).into_owned(),
        Err(why) => format!("({why})\n"),
    };
    format!("this evaluator:\n{own}program under test:\n{theirs}")
}

struct Progress {
    jobs: u64,
    begun: Instant,
    shown: Instant,
}

impl Progress {
    fn new(jobs: u64) -> Progress {
        Progress {
            jobs,
            begun: Instant::now(),
            shown: Instant::now(),
        }
    }

    fn show(&mut self, done: u64) {
        let now = Instant::now();
        if done < self.jobs && now - self.shown < Duration::from_secs(2) {
            return;
        }
        self.shown = now;
        let seconds = (now - self.begun).as_secs_f64();
        eprintln!("{done} of {} jobs, {seconds:.1} s", self.jobs);
    }
}
