//! One sum in each row: Add64, AddCarry64, Adcx64 and Adox64 over words at the
//! edges of the signed and the unsigned numbers, by both evaluations. Flags and
//! fill have carry, overflow and the other bits set and clear.

use super::stage::TOP;
use crate::answer::Answer;
use crate::build::{plain, reg};
use crate::checks::checked_answer;
use crate::job::Job;
use crate::terms::{Evaluation, EVALUATIONS};
use crate::tree::Instruction::*;
use crate::tree::*;

const RBX: Reg = 1;

/// 0, 1 and -1; both ends of the signed numbers, and half of each. Two halves
/// are just within the range if they are negative, just beyond it if not.
const WORDS: [u64; 8] = [
    0,
    1,
    1 << 62,
    (1 << 63) - 1,
    1 << 63,
    (1 << 63) + 1,
    3 << 62,
    TOP,
];

/// Neither carry nor overflow, each, both; then with all the other bits: both,
/// each.
const FLAGS: [u64; 7] = [0, 1, 2048, 2049, TOP, TOP - 1, TOP - 2048];
const FILLS: [u64; 2] = [0, TOP];

pub struct Row {
    sum: OfTwo,
    pub evaluation: Evaluation,
    words: [u64; 2],
    flags: u64,
    fill: u64,
}

impl Row {
    pub fn job(&self) -> Job {
        let [dst, src] = self.words;
        let job = plain((self.sum)(reg(RAX), reg(RBX)));
        let job = job.reg(RAX, dst).reg(RBX, src);
        job.flags(self.flags).fill(self.fill)
    }

    /// The kind and the evaluation in a byte each, then six numbers: the words,
    /// flags and fill before, and what Rax and the flags have to be behind.
    fn stored(&self) -> Result<Vec<u8>, String> {
        let job = self.job();
        let (own, _) = checked_answer(&job, self.evaluation, 0)?;
        let end = match (own.answer, own.end) {
            (Answer::Done, Some((end, _))) => end,
            other => return Err(format!("not done: {other:?}")),
        };
        let evaluation = match self.evaluation {
            Evaluation::Base => 0,
            Evaluation::Board => 1,
        };
        let [dst, src] = self.words;
        let mut bytes = vec![job.code[0], evaluation];
        for number in [dst, src, self.flags, self.fill, end.regs[0], end.flags] {
            bytes.extend(number.to_le_bytes());
        }
        Ok(bytes)
    }
}

fn cases() -> Vec<([u64; 2], u64)> {
    let mut cases = Vec::new();
    for dst in WORDS {
        for src in WORDS {
            cases.extend(FLAGS.map(|flags| ([dst, src], flags)));
        }
    }
    cases
}

/// Where the fill word does not matter by either evaluation, fills take turns.
pub fn rows() -> Vec<Row> {
    let sums: [(OfTwo, bool); 4] = [
        (Add64, true),
        (AddCarry64, true),
        (Adcx64, false),
        (Adox64, false),
    ];
    let mut rows = Vec::new();
    for (sum, fill_matters) in sums {
        for evaluation in EVALUATIONS {
            for (turn, (words, flags)) in cases().into_iter().enumerate() {
                let fills = match fill_matters {
                    true => &FILLS[..],
                    false => &FILLS[turn % 2..=turn % 2],
                };
                rows.extend(fills.iter().map(|&fill| Row {
                    sum,
                    evaluation,
                    words,
                    flags,
                    fill,
                }));
            }
        }
    }
    rows
}

/// The rows one behind the other, and their number.
pub fn stored() -> Result<(Vec<u8>, usize), String> {
    let rows = rows();
    let stored: Result<Vec<Vec<u8>>, String> = rows.iter().map(Row::stored).collect();
    Ok((stored?.concat(), rows.len()))
}

#[cfg(test)]
#[path = "sums_tests.rs"]
mod tests;
