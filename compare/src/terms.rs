//! What a caller names for a run beside the job: one of the two evaluations,
//! and the step limit. Which flags an evaluation leaves is told in each machine
//! (`instructions.rs`, `bytes.rs`) for itself.

use std::fmt;

#[derive(Clone, Copy, Debug, PartialEq, Eq)]
pub enum Evaluation {
    /// F*'s, which the job program has.
    Base,
    /// Add64 and AddCarry64 tell by overflow whether their signed sum fits.
    Board,
}

pub const EVALUATIONS: [Evaluation; 2] = [Evaluation::Base, Evaluation::Board];

/// The job program's limit.
pub const LARGEST_LIMIT: u64 = u64::MAX;

#[derive(Clone, Copy, Debug, PartialEq, Eq)]
pub struct Terms {
    pub evaluation: Evaluation,
    pub limit: u64,
}

impl Evaluation {
    pub fn name(self) -> &'static str {
        match self {
            Evaluation::Base => "base",
            Evaluation::Board => "board",
        }
    }

    pub fn limited(self, limit: u64) -> Terms {
        Terms {
            evaluation: self,
            limit,
        }
    }

    /// Under the largest limit.
    pub fn unlimited(self) -> Terms {
        self.limited(LARGEST_LIMIT)
    }
}

impl fmt::Display for Terms {
    fn fmt(&self, f: &mut fmt::Formatter) -> fmt::Result {
        let name = self.evaluation.name();
        write!(f, "{name} evaluation, limit {}", self.limit)
    }
}
