//! Running: the refusals in their order, then the source's evaluator, whose
//! log gives the answer.

use crate::answer::{Answer, Outcome, STOPPED};
use crate::cells;
use crate::follow::{Event, Follow, Log, Mode, Settings, Stop};
use crate::job::{parse, Job};
use crate::reader::{self, Rule, Trouble};
use crate::source::eval_code;
use crate::state::State;
use crate::sums::SumLog;
use crate::terms::{Evaluation, Terms};
use crate::tree::{Code, INSTRUCTION_KINDS};
use crate::watch::{Reads, Watch};
use std::collections::BTreeSet;

/// What following a job showed beside its outcome.
pub struct Followed {
    pub outcome: Outcome,
    /// Instructions and comparisons, also behind a bad event; the outcome has
    /// the steps.
    pub followed: u64,
    pub met: [u64; INSTRUCTION_KINDS],
    pub sums: SumLog,
    pub reads: Reads,
    /// The places of all that made a step.
    pub completed: BTreeSet<usize>,
    pub least_fuel: u64,
}

/// The budget was used up before the job ended.
#[derive(Debug, PartialEq, Eq)]
pub struct TooLong;

/// Answers a job's bytes as the job program does, however long it takes.
pub fn answer_bytes(input: &[u8]) -> Outcome {
    answer_bytes_by(Rule::Today, input)
}

pub fn answer_bytes_by(rule: Rule, input: &[u8]) -> Outcome {
    match parse(input) {
        Ok(job) => answer_by(rule, &job, Evaluation::Base.unlimited()),
        Err(trouble) => Outcome::refused(trouble),
    }
}

/// Answers a job on any terms.
pub fn answer(job: &Job, terms: Terms) -> Outcome {
    answer_by(Rule::Today, job, terms)
}

fn answer_by(rule: Rule, job: &Job, terms: Terms) -> Outcome {
    match accept_by(rule, job) {
        Ok(code) => outcome(job, &code, Settings::new(job.fill, terms)),
        Err(trouble) => Outcome::refused(trouble),
    }
}

/// The outcome of accepted code with the job's own fuel; no budget is set.
pub fn outcome(job: &Job, code: &Code, settings: Settings) -> Outcome {
    outcome_with(job, code, job.fuel, settings)
}

/// The same with any fuel.
pub fn outcome_with(job: &Job, code: &Code, fuel: u32, settings: Settings) -> Outcome {
    let followed = follow(job, code, u64::from(fuel), settings);
    followed.expect("no budget was set").outcome
}

/// Code is checked first, then the cells.
pub fn accept(job: &Job) -> Result<Code, Trouble> {
    accept_by(Rule::Today, job)
}

pub fn accept_by(rule: Rule, job: &Job) -> Result<Code, Trouble> {
    let code = reader::read_by(rule, &job.code)?;
    cells::check(&job.cells)?;
    Ok(code)
}

/// Whether today's rule refuses a job's bytes for a scale.
pub fn is_scale_refused(input: &[u8]) -> bool {
    let refusal = parse(input).and_then(|job| accept(&job)).err();
    refusal.is_some_and(|trouble| trouble.number == 7)
}

/// Runs accepted code with any fuel.
pub fn follow(job: &Job, code: &Code, fuel: u64, settings: Settings) -> Result<Followed, TooLong> {
    let mut f = Follow::new(settings);
    let start = State::new(&job.start, &job.cells);
    let result = eval_code(code, fuel, start, &mut f);
    if f.over_budget {
        return Err(TooLong);
    }
    let (answer, state) = read_off(&f.log, result);
    Ok(Followed {
        outcome: Outcome {
            answer,
            steps: f.steps_made,
            watch: watch_of(&f.reads, &state),
            end: Some((state.visible(), state.cells(&job.cells))),
        },
        followed: f.followed,
        met: f.met,
        sums: f.sums,
        reads: f.reads,
        completed: f.completed,
        least_fuel: f.least_fuel,
    })
}

/// As the source goes, or, where that is more than the budget, only up to the first
/// bad event: past a step limit it may go on for long.
pub fn follow_soon(
    job: &Job,
    code: &Code,
    fuel: u64,
    settings: Settings,
) -> Result<Followed, TooLong> {
    let first_alone = Settings {
        mode: Mode::StopsAtFirst,
        ..settings
    };
    follow(job, code, fuel, settings).or_else(|TooLong| follow(job, code, fuel, first_alone))
}

/// What is open belongs to the state that is handed back.
fn watch_of(reads: &Reads, state: &State) -> Watch {
    Watch {
        mark: reads.first,
        carry_open: state.flags.carry_open,
        overflow_open: state.flags.overflow_open,
    }
}

fn read_off(log: &Log, result: Result<State, Stop>) -> (Answer, State) {
    log_matches_source(log, &result);
    match log.bad.first() {
        None => (
            Answer::Done,
            result.ok().expect("a run without a bad event ends"),
        ),
        Some(event) => {
            let before = log.before_first.clone().expect("kept with the first event");
            let answer = match *event {
                Event::Failed(number, place) => Answer::Fault(number, place),
                Event::Starved(place) => Answer::Spent(place),
                Event::LimitMet(place) => Answer::Stopped(STOPPED, place),
            };
            (answer, before)
        }
    }
}

/// What the source itself can tell, `ok` and None, has to match the log. Of a
/// limit it knows nothing: that event leaves no trace but its own.
fn log_matches_source(log: &Log, result: &Result<State, Stop>) {
    let starved = matches!(log.bad.last(), Some(Event::Starved(_)));
    let count = |kind: fn(&Event) -> bool| log.bad.iter().filter(|e| kind(e)).count();
    let failures = count(|e| matches!(e, Event::Failed(..)));
    match result {
        Ok(state) => assert!(state.ok == (failures == 0) && !starved),
        Err(Stop::NoFuel) => assert!(starved),
        Err(Stop::Cut) => assert!(!log.bad.is_empty()),
    }
    assert!(count(|e| matches!(e, Event::Starved(_))) <= 1);
    let behind = log.bad.iter().skip(1);
    let met_behind = behind.filter(|e| matches!(e, Event::LimitMet(_)));
    assert_eq!(met_behind.count(), 0);
}

#[cfg(test)]
#[path = "run_tests.rs"]
mod tests;
