//! What was met of scales: whose operand is refused for one, which of two bad fields
//! of a record decided, and the scales of memory that was found.

use crate::answer::Answer;
use crate::counts::Counts;
use crate::places::{records, Next, NEXTS};
use crate::reader::{last_holder, Trouble, SCALES};
use crate::tree::Code;
use std::collections::BTreeSet;

/// Two bad fields of one MIndex, named by the one that is refused.
#[derive(Clone, Copy, Debug, PartialEq, Eq, PartialOrd, Ord)]
pub enum Both {
    /// 4: the base stands ahead of the scale.
    Base,
    /// 7: the scale stands ahead of the index.
    Scale,
}

pub const BOTH: [Both; 2] = [Both::Base, Both::Scale];

impl Both {
    pub fn label(self) -> String {
        let told = match self {
            Both::Base => "4 at a base, the scale behind it bad too",
            Both::Scale => "7 at a scale, the index behind it bad too",
        };
        told.to_string()
    }

    /// A field that is refused stands in a whole record. Only the base of an MIndex
    /// comes right behind a 44: ahead of any other stands another kind, a number up to
    /// 15, or the high byte of a scale, which is 0.
    pub fn of(code: &[u8], trouble: Trouble) -> Option<Both> {
        let at = trouble.place;
        let scale = |at: usize| i16::from_le_bytes([code[at], code[at + 1]]);
        match trouble.number {
            4 if code[at - 1] == 0x44 && !SCALES.contains(&scale(at + 1)) => Some(Both::Base),
            7 if code[at + 2] > 15 => Some(Both::Scale),
            _ => None,
        }
    }
}

#[derive(Default)]
pub struct ScaleTally {
    counts: Counts,
}

fn refused_label(holder: Next) -> String {
    let whose = match holder {
        Next::Instruction => "an instruction",
        Next::Choice => "an IfElse's comparison",
        Next::Test => "a While's comparison",
    };
    format!("7 at an operand of {whose}")
}

fn used_label(scale: i16) -> String {
    format!("scale {scale} in a completed access")
}

fn labels() -> Vec<String> {
    let mut labels: Vec<String> = NEXTS.map(refused_label).into();
    labels.extend(BOTH.map(Both::label));
    labels.extend(SCALES.map(used_label));
    labels
}

impl ScaleTally {
    /// Code that checking refuses.
    pub fn refused(&mut self, code: &[u8], answer: &Answer) {
        let Answer::Refused(number @ (4 | 7), place) = *answer else {
            return;
        };
        if let (7, Some(holder)) = (number, last_holder(code)) {
            self.counts.count(refused_label(holder));
        }
        if let Some(both) = Both::of(code, Trouble { number, place }) {
            self.counts.count(both.label());
        }
    }

    /// A run, with the places of all that it completed.
    pub fn ran(&mut self, code: &Code, completed: &BTreeSet<usize>) {
        let all = records(code).into_iter();
        for record in all.filter(|r| completed.contains(&r.place)) {
            for (_, scale) in record.scales() {
                self.counts.count(used_label(scale));
            }
        }
    }

    pub fn missing(&self) -> Vec<String> {
        self.counts.missing(labels())
    }

    pub fn report(&self) -> String {
        format!("scales\n{}", self.counts.report())
    }
}

#[cfg(test)]
#[path = "scale_tally_tests.rs"]
mod tests;
