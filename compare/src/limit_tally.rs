//! What was met under step limits: each limit, each answer, and where a run was
//! stopped that would have ended in each way.

use crate::answer::{Answer, Outcome};
use crate::counts::Counts;
use crate::limits::LIMITS;
use crate::places::{next_at, Next, NEXTS};
use crate::tally::class;
use crate::tree::Code;
use std::cmp::Ordering;

#[derive(Default)]
pub struct LimitTally {
    counts: Counts,
    runs: u64,
    /// Runs that the program under test cannot make, as it takes no terms.
    pub not_taken: u64,
}

/// One job under one limit.
pub struct Met<'a> {
    pub limit: u64,
    pub limited: &'a Outcome,
    pub unlimited: &'a Outcome,
    /// None where it is refused.
    pub code: Option<&'a Code>,
}

/// The ways in which a run can end without a limit.
const ENDS: [&str; 3] = ["done", "fault", "spent"];

pub fn end_of(answer: &Answer) -> &'static str {
    match answer {
        Answer::Done => "done",
        Answer::Fault(..) => "fault",
        Answer::Spent(_) => "spent",
        Answer::Stopped(..) => "stopped",
        Answer::Refused(..) => "refused",
    }
}

pub fn next_name(next: Next) -> &'static str {
    match next {
        Next::Instruction => "an instruction",
        Next::Choice => "an IfElse's comparison",
        Next::Test => "a While's comparison",
    }
}

pub fn limit_label(name: &str) -> String {
    format!("limit {name}")
}

fn stop_label(next: Next, before: &str) -> String {
    format!("stopped 37 at {}, {before}", next_name(next))
}

/// A limit that is met just where a check would fail.
pub const IN_PLACE: &str = "in place of fault";

fn ahead_of(end: &str) -> String {
    format!("ahead of {end}")
}

fn edge_label(side: &str, end: &str) -> String {
    format!("a limit {side} the steps up to {end}")
}

/// The side of the limit, seen from the steps of the run without one.
fn side_of(limit: u64, steps: u64) -> &'static str {
    match limit.cmp(&steps) {
        Ordering::Less => "below",
        Ordering::Equal => "of just",
        Ordering::Greater => "above",
    }
}

fn limit_labels() -> Vec<String> {
    LIMITS.iter().map(|(name, _)| limit_label(name)).collect()
}

/// All the ends and stops that can be met.
fn end_labels() -> Vec<String> {
    let mut labels = Vec::new();
    for end in ENDS {
        labels.extend(NEXTS.map(|next| stop_label(next, &ahead_of(end))));
        labels.extend(["below", "of just", "above"].map(|side| edge_label(side, end)));
    }
    labels.extend(NEXTS.map(|next| stop_label(next, IN_PLACE)));
    labels.push("refused".to_string());
    labels.push("stopped 37".to_string());
    labels
}

impl LimitTally {
    /// A limit of this name was drawn.
    pub fn drew(&mut self, name: &str) {
        self.counts.count(limit_label(name));
    }

    pub fn add(&mut self, met: &Met) {
        self.runs += 1;
        let end = end_of(&met.unlimited.answer);
        let Some(code) = met.code else {
            return self.counts.count(end.to_string());
        };
        let side = side_of(met.limit, met.unlimited.steps);
        self.counts.count(edge_label(side, end));
        if let Answer::Stopped(_, place) = met.limited.answer {
            self.counts.count(class(&met.limited.answer));
            let before = match met.limit == met.unlimited.steps {
                true => IN_PLACE.to_string(),
                false => ahead_of(end),
            };
            let next = next_at(code, place).map(|next| stop_label(next, &before));
            let next = next.unwrap_or("stopped where nothing comes next".to_string());
            self.counts.count(next);
        }
    }

    /// What a batch has to meet and did not. Nothing is missing from a program
    /// that takes no terms.
    pub fn missing(&self) -> Vec<String> {
        if self.not_taken > 0 {
            return Vec::new();
        }
        let mut labels = self.counts.missing(limit_labels());
        labels.extend(self.missing_ends());
        labels
    }

    pub fn missing_ends(&self) -> Vec<String> {
        self.counts.missing(end_labels())
    }

    pub fn report(&self, heading: &str) -> String {
        format!("{heading} {}\n{}", self.runs, self.counts.report())
    }
}

#[cfg(test)]
mod tests {
    use super::*;

    #[test]
    fn what_has_to_be_met() {
        let (limits, ends) = (limit_labels(), end_labels());
        assert_eq!((limits.len(), ends.len()), (9, 9 + 9 + 3 + 2));
        let mut tally = LimitTally::default();
        assert_eq!(tally.missing(), [limits, ends].concat());
        tally.not_taken = 1;
        assert!(tally.missing().is_empty());
    }
}
