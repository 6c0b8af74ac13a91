//! The least fuel with which a run is not Spent, as plainly as it can be had: fuel
//! 0, 1, 2 and so on are tried, each time from the job's start, up to the first with
//! which the run is not Spent. What a run has left of its fuel is not looked at.

use crate::answer::Outcome;
use crate::follow::Settings;
use crate::job::Job;
use crate::limits;
use crate::reader::Trouble;
use crate::run::{accept, follow_soon};
use crate::terms::Terms;
use crate::tree::Code;
use std::collections::BTreeSet;

#[derive(Clone, Copy, Debug, PartialEq, Eq)]
pub enum Report {
    /// The least fuel, at or below the cap.
    Fuel(u32),
    /// With the cap, too, the run is Spent; the number is `CAP_SPENT`.
    CapSpent(u8),
    Refused,
}

/// The number of every report that the cap is too small.
pub const CAP_SPENT: u8 = 61;

/// A report, with the outcome of the run that it speaks of: that with the least fuel
/// or that with the cap, which is Spent and has its place.
#[derive(Clone, Debug, PartialEq, Eq)]
pub struct Least {
    pub report: Report,
    pub outcome: Outcome,
}

impl Least {
    pub fn refused(trouble: Trouble) -> Least {
        Least {
            report: Report::Refused,
            outcome: Outcome::refused(trouble),
        }
    }

    pub fn told(&self) -> String {
        let report = match self.report {
            Report::Fuel(fuel) => format!("least fuel {fuel}\n"),
            Report::CapSpent(number) => format!("{number}, with the cap\n"),
            Report::Refused => String::new(),
        };
        report + &limits::told(&self.outcome)
    }
}

/// The least fuel up to a cap, however long it takes. The job's own fuel is not
/// looked at.
pub fn least_fuel(job: &Job, cap: u32, terms: Terms) -> Least {
    let reach = Reach {
        fuel: cap,
        budget: u64::MAX,
    };
    match accept(job) {
        Ok(code) => {
            let least = Tries::new(job, &code, terms, reach).least(cap);
            least.expect("every fuel up to the cap may be tried")
        }
        Err(trouble) => Least::refused(trouble),
    }
}

/// How far fuel is tried.
#[derive(Clone, Copy)]
pub struct Reach {
    pub fuel: u32,
    /// Instructions and comparisons that all tries together may follow.
    pub budget: u64,
}

/// A run that was tried, and the places of all that made a step in it.
pub struct Try {
    pub outcome: Outcome,
    pub completed: BTreeSet<usize>,
}

/// The runs of accepted code with fuel 0, 1, 2 and so on, each Spent but maybe for
/// the last, behind which none is tried.
pub struct Tries {
    pub tried: Vec<Try>,
}

impl Tries {
    pub fn new(job: &Job, code: &Code, terms: Terms, reach: Reach) -> Tries {
        let mut tried: Vec<Try> = Vec::new();
        let mut left = reach.budget;
        for fuel in 0..=u64::from(reach.fuel) {
            let settings = Settings {
                budget: left,
                ..Settings::new(job.fill, terms)
            };
            let Ok(followed) = follow_soon(job, code, fuel, settings) else {
                break;
            };
            // A try is never for nothing, so that they come to an end.
            left = left.saturating_sub(followed.followed + 1);
            let ended = !followed.outcome.is_spent();
            tried.push(Try {
                outcome: followed.outcome,
                completed: followed.completed,
            });
            if ended || left == 0 {
                break;
            }
        }
        Tries { tried }
    }

    /// The first fuel up to the cap with which the run is not Spent, or 61. None
    /// where it was not tried as far as it takes to tell.
    pub fn least(&self, cap: u32) -> Option<Least> {
        let (report, run) = match self.enough(cap) {
            Some((fuel, tried)) => (Report::Fuel(fuel), tried),
            None => (Report::CapSpent(CAP_SPENT), self.tried.get(cap as usize)?),
        };
        Some(Least {
            report,
            outcome: run.outcome.clone(),
        })
    }

    fn enough(&self, cap: u32) -> Option<(u32, &Try)> {
        let mut up_to_cap = (0..=cap).zip(&self.tried);
        up_to_cap.find(|(_, tried)| !tried.outcome.is_spent())
    }

    /// The least fuel of all, if it was tried.
    pub fn found(&self) -> Option<u32> {
        self.enough(u32::MAX).map(|(fuel, _)| fuel)
    }

    /// The run with the most fuel that was tried: with the least, if that was found.
    pub fn last(&self) -> Option<&Try> {
        self.tried.last()
    }
}

#[cfg(test)]
#[path = "least_tests.rs"]
mod tests;
