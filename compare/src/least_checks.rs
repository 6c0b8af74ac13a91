//! What has to hold inside this evaluator of a report of the least fuel, told by runs
//! with the cap and with other fuels, and by the byte machine.

use crate::answer::Outcome;
use crate::bound;
use crate::checks::Run;
use crate::follow::{Mode, Settings};
use crate::job::Job;
use crate::least::{Least, Report, CAP_SPENT};
use crate::rng::Rng;
use crate::run::outcome_with;
use crate::terms::Terms;
use crate::tree::Code;
use std::collections::BTreeSet;

/// Accepted code on some terms. The salt stands for what is left to chance.
pub struct Fuelled<'a> {
    pub job: &'a Job,
    pub code: &'a Code,
    pub terms: Terms,
    pub salt: u64,
}

impl Fuelled<'_> {
    /// The report is the one for this cap, with which the run has to come to an end.
    pub fn check(&self, cap: u32, least: &Least) -> Result<(), String> {
        let held = self.held(cap, least);
        held.map_err(|e| format!("inner check, {}, cap {cap}, {least:?}: {e}", self.terms))
    }

    /// 61 is for Spent with the cap and for nothing else, and either way the run with
    /// the cap has the outcome of the report.
    fn held(&self, cap: u32, least: &Least) -> Result<(), String> {
        let with_cap = self.run(cap);
        let told_spent = least.report == Report::CapSpent(CAP_SPENT);
        if with_cap != least.outcome || with_cap.is_spent() != told_spent {
            return Err(format!("with the cap: {with_cap:?}"));
        }
        let fuel = match least.report {
            Report::Fuel(fuel) if fuel <= cap => fuel,
            Report::CapSpent(_) if told_spent => cap,
            report => return Err(format!("{report:?}")),
        };
        if !told_spent {
            self.too_little(fuel)?;
            self.enough(fuel, cap, &least.outcome)?;
        }
        if !bound::holds(self.code, u64::from(fuel), least.outcome.steps) {
            return Err("the steps are over the bound".to_string());
        }
        self.again().byte_machine_agrees(fuel, &least.outcome)
    }

    /// With everything below it the run is Spent.
    fn too_little(&self, fuel: u32) -> Result<(), String> {
        for below in 0..fuel {
            let outcome = self.run(below);
            if !outcome.is_spent() {
                return Err(format!("with {below}: {outcome:?}"));
            }
            if below + 1 == fuel {
                self.again().byte_machine_agrees(below, &outcome)?;
            }
        }
        Ok(())
    }

    /// With it, and with some more that is less than the cap, the run ends alike.
    fn enough(&self, fuel: u32, cap: u32, outcome: &Outcome) -> Result<(), String> {
        let (fuel, cap) = (u64::from(fuel), u64::from(cap));
        let drawn = Rng::new(self.salt).word();
        let more = drawn.checked_rem(cap - fuel).map(|more| fuel + more);
        for fuel in BTreeSet::from([fuel, more.unwrap_or(fuel)]) {
            let again = self.again();
            again.same_outcome(fuel, self.settings(), outcome)?;
        }
        Ok(())
    }

    fn run(&self, fuel: u32) -> Outcome {
        outcome_with(self.job, self.code, fuel, self.settings())
    }

    /// Otherwise than where the least fuel was tried: nothing is followed past the
    /// first bad event, and loads off Mem64 give another word.
    fn settings(&self) -> Settings {
        Settings {
            off: !self.salt,
            mode: Mode::StopsAtFirst,
            ..Settings::new(self.job.fill, self.terms)
        }
    }

    fn again(&self) -> Run<'_> {
        Run {
            job: self.job,
            code: self.code,
            evaluation: self.terms.evaluation,
            salt: self.salt,
        }
    }
}

#[cfg(test)]
#[path = "least_checks_tests.rs"]
mod tests;
