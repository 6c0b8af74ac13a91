//! What has to hold inside this evaluator for a job that it ran, by either
//! evaluation: the byte machine's end, a larger fuel, the bound of the steps,
//! other step limits, the watch, and that no answer leans on what the source
//! leaves free.

use crate::answer::{Answer, Outcome, STOPPED};
use crate::bound;
use crate::bytes::{ByteMemory, Halt, Machine};
use crate::cells::Cell;
use crate::fill_checks::Watched;
use crate::follow::{Mode, Settings};
use crate::job::Job;
use crate::places::next_at;
use crate::rng::Rng;
use crate::run::{self, accept, follow, Followed};
use crate::sums::SumLog;
use crate::terms::{Evaluation, LARGEST_LIMIT};
use crate::tree::{Code, RSP};
use std::cmp::Ordering;

/// Answers a job under the largest limit, and checks the run if it is one. Also
/// hands back the sums that it completed.
pub fn checked_answer(
    job: &Job,
    evaluation: Evaluation,
    salt: u64,
) -> Result<(Outcome, SumLog), String> {
    match accept(job) {
        Ok(code) => {
            let followed = checked_run(job, &code, evaluation, salt)?;
            Ok((followed.outcome, followed.sums))
        }
        Err(trouble) => Ok((Outcome::refused(trouble), SumLog::default())),
    }
}

/// A run on the board that completed no sum has to be the base evaluation's.
pub fn only_sums_differ(base: &Outcome, board: &Outcome, sums: &SumLog) -> Result<(), String> {
    match sums.completed.is_empty() && board != base {
        true => Err(format!("without a sum, {base:?} became {board:?}")),
        false => Ok(()),
    }
}

/// Follows accepted code under the largest limit, and checks the run.
pub fn checked_run(
    job: &Job,
    code: &Code,
    evaluation: Evaluation,
    salt: u64,
) -> Result<Followed, String> {
    let settings = Settings::new(job.fill, evaluation.unlimited());
    let followed = follow(job, code, u64::from(job.fuel), settings);
    let followed = followed.map_err(|_| "no budget was set")?;
    let run = Run {
        job,
        code,
        evaluation,
        salt,
    };
    let held = run.check(&followed.outcome);
    held.map_err(|e| format!("inner check, {evaluation:?}: {e}"))?;
    Ok(followed)
}

/// A run of accepted code by one of the evaluations. The salt stands for what
/// is left to chance.
pub struct Run<'a> {
    pub job: &'a Job,
    pub code: &'a Code,
    pub evaluation: Evaluation,
    pub salt: u64,
}

impl Run<'_> {
    /// Everything that is checked of a run besides the comparison. The outcome
    /// is the one under the largest limit.
    fn check(&self, outcome: &Outcome) -> Result<(), String> {
        let fuel = u64::from(self.job.fuel);
        self.byte_machine_agrees(self.job.fuel, outcome)?;
        if !bound::holds(self.code, fuel, outcome.steps) {
            return Err(format!("{} steps are over the bound", outcome.steps));
        }
        self.limits_hold(outcome)?;
        self.watch_holds(outcome, LARGEST_LIMIT)?;
        let settings = Settings::new(self.job.fill, self.evaluation.unlimited());
        if outcome.answer == Answer::Done {
            for larger in [fuel + 1, 2 * fuel + 1_000] {
                self.same_outcome(larger, settings, outcome)?;
            }
            return Ok(());
        }
        let settings = Settings {
            off: !self.salt,
            mode: Mode::StopsAtFirst,
            ..settings
        };
        self.same_outcome(fuel, settings, outcome)
    }

    /// The run again with any fuel and other settings.
    pub fn same_outcome(
        &self,
        fuel: u64,
        settings: Settings,
        outcome: &Outcome,
    ) -> Result<(), String> {
        let again = follow(self.job, self.code, fuel, settings);
        let again = again.map_err(|_| "no budget was set")?.outcome;
        if again != *outcome {
            return Err(format!("fuel {fuel}, {settings:?}: {again:?}"));
        }
        Ok(())
    }

    /// The run again with as many steps as it made, with more and with fewer;
    /// the salt says how many, and whether the source then runs on.
    fn limits_hold(&self, outcome: &Outcome) -> Result<(), String> {
        let mut rng = Rng::new(self.salt);
        let steps = outcome.steps;
        let more = rng.pick(&[steps + 1, steps + 2, 1 << 32, 1 << 63, u64::MAX]);
        let mut limits = vec![steps, more.max(steps + 1)];
        if let Some(any) = rng.word().checked_rem(steps) {
            limits.push(rng.pick(&[0, any, any, steps - 1]));
        }
        for limit in limits {
            let settings = Settings {
                off: !self.salt,
                mode: rng.pick(&[Mode::RunsOn, Mode::StopsAtFirst]),
                ..Settings::new(self.job.fill, self.evaluation.limited(limit))
            };
            let limited = limit_holds(self.job, self.code, outcome, settings)?;
            if limit < steps {
                self.byte_machine_agrees(self.job.fuel, &limited)?;
                self.watch_holds(&limited, limit)?;
            }
        }
        Ok(())
    }

    fn watch_holds(&self, outcome: &Outcome, limit: u64) -> Result<(), String> {
        let watched = Watched {
            job: self.job,
            code: self.code,
            evaluation: self.evaluation,
            other: Rng::new(!self.salt).word(),
        };
        watched.check(outcome, limit)
    }

    /// The byte machine, given as many steps as the run with this fuel made, uses
    /// them all up and then halts in the run's way, with the run's end. Ahead of a
    /// fault every check has passed, so this is no less true of runs that are not
    /// Done.
    pub fn byte_machine_agrees(&self, fuel: u32, run: &Outcome) -> Result<(), String> {
        let (start, fill) = (&self.job.start, self.job.fill);
        let memory = ByteMemory::new(self.salt, &self.job.cells);
        let mut machine = Machine::new(start, fill, self.evaluation, memory);
        machine.left = run.steps;
        let halt = machine.run(self.code, u64::from(fuel));
        let expected = match run.answer {
            Answer::Done => Ok(()),
            Answer::Spent(_) => Err(Halt::OutOfFuel),
            _ => Err(Halt::OutOfSteps),
        };
        if halt != expected || machine.left != 0 {
            let (answer, left) = (run.answer, machine.left);
            return Err(format!("{answer:?}, byte machine: {halt:?}, {left} left"));
        }
        let Some((end, cells)) = &run.end else {
            return Err("a run without an end".to_string());
        };
        if machine.visible() != *end {
            return Err(format!("the byte machine's end: {:?}", machine.visible()));
        }
        if end.regs[usize::from(RSP)] != start.regs[usize::from(RSP)] {
            return Err("Rsp was changed in a run".to_string());
        }
        bytes_agree(&machine.memory, cells)
    }
}

/// The outcome under a limit has to be the one that the run without it leads
/// to.
pub fn limit_holds(
    job: &Job,
    code: &Code,
    unlimited: &Outcome,
    settings: Settings,
) -> Result<Outcome, String> {
    let limited = run::outcome(job, code, settings);
    let limit = settings.terms.limit;
    let holds = match limit.cmp(&unlimited.steps) {
        Ordering::Greater => limited == *unlimited,
        Ordering::Equal => limited == at_own_limit(unlimited),
        Ordering::Less => stopped_within(&limited, code, limit),
    };
    match holds {
        true => Ok(limited),
        false => Err(format!("{settings:?}: {limited:?}")),
    }
}

/// With as many steps as were made nothing changes but a fault: the instruction
/// or comparison that would fail is not tried any more.
fn at_own_limit(unlimited: &Outcome) -> Outcome {
    let mut outcome = unlimited.clone();
    if let Answer::Fault(_, place) = outcome.answer {
        outcome.answer = Answer::Stopped(STOPPED, place);
    }
    outcome
}

fn stopped_within(limited: &Outcome, code: &Code, limit: u64) -> bool {
    match limited.answer {
        Answer::Stopped(STOPPED, place) => limited.steps == limit && next_at(code, place).is_some(),
        _ => false,
    }
}

fn bytes_agree(memory: &ByteMemory, cells: &[Cell]) -> Result<(), String> {
    if let Some(cell) = cells.iter().find(|c| !memory.agrees(c)) {
        return Err(format!("bytes and cell differ at {}", cell.address));
    }
    for (&address, &byte) in &memory.written {
        if !covered(address, cells) && byte != memory.untouched(address) {
            return Err(format!("the byte at {address} belongs to no cell"));
        }
    }
    Ok(())
}

/// The cells stand in rising order.
fn covered(address: u64, cells: &[Cell]) -> bool {
    let following = cells.partition_point(|c| c.address <= address);
    following > 0 && u128::from(address) < cells[following - 1].end()
}

#[cfg(test)]
#[path = "checks_tests.rs"]
mod tests;
