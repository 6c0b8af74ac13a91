//! How often each answer and number was met.

use crate::answer::Answer;
use crate::board_tally::BoardTally;
use crate::fill_tally::FillTally;
use crate::least_tally::LeastTally;
use crate::limit_tally::LimitTally;
use crate::reader::Rule;
use crate::scale_tally::ScaleTally;
use crate::tree::INSTRUCTION_KINDS;
use std::collections::BTreeMap;

/// Answers that every run of some length has to meet.
const REFUSALS: [u8; 13] = [1, 2, 3, 4, 5, 6, 7, 12, 13, 14, 15, 41, 42];
const FAULTS: [u8; 6] = [31, 32, 33, 34, 35, 36];

#[derive(Default)]
pub struct Tally {
    counts: BTreeMap<String, u64>,
    pub jobs: u64,
    /// Instructions and comparisons, also behind a fault or a loop without fuel.
    pub followed: u64,
    /// The steps of the answers.
    pub steps: u64,
    pub met: [u64; INSTRUCTION_KINDS],
    pub limits: LimitTally,
    pub board: BoardTally,
    pub fills: FillTally,
    pub least: LeastTally,
    pub scales: ScaleTally,
}

/// An answer without its place.
pub fn class(answer: &Answer) -> String {
    match answer {
        Answer::Done => "done".to_string(),
        Answer::Spent(_) => "spent".to_string(),
        Answer::Fault(number, _) => format!("fault {number:2}"),
        Answer::Stopped(number, _) => format!("stopped {number:2}"),
        Answer::Refused(number, _) => format!("refused {number:2}"),
    }
}

/// All the classes that a run can end with. None gets as far as the largest
/// limit, so Stopped is not among them.
pub fn end_classes() -> Vec<String> {
    let mut all = vec![class(&Answer::Done), class(&Answer::Spent(0))];
    all.extend(FAULTS.map(|n| class(&Answer::Fault(n, 0))));
    all
}

/// All the classes that a job can be answered with. Last year there was no 7.
pub fn classes(rule: Rule) -> Vec<String> {
    let mut all = end_classes();
    let refusals = REFUSALS.iter().filter(|&&n| n != 7 || rule == Rule::Today);
    all.extend(refusals.map(|&n| class(&Answer::Refused(n, 0))));
    all
}

impl Tally {
    pub fn add(&mut self, answer: &Answer) {
        *self.counts.entry(class(answer)).or_insert(0) += 1;
        self.jobs += 1;
    }

    pub fn count(&self, class: &str) -> u64 {
        self.counts.get(class).copied().unwrap_or(0)
    }

    pub fn missing(&self) -> Vec<String> {
        let mut all = classes(Rule::Today);
        all.retain(|c| self.count(c) == 0);
        all.extend(
            (0..INSTRUCTION_KINDS)
                .filter(|&i| self.met[i] == 0)
                .map(|i| format!("instruction {}", i + 1)),
        );
        all
    }

    pub fn report(&self) -> String {
        let mut text = String::new();
        for (class, count) in &self.counts {
            let share = 100.0 * *count as f64 / self.jobs as f64;
            text.push_str(&format!("{class:<10} {count:>9}  {share:5.1} %\n"));
        }
        let (followed, steps) = (self.followed, self.steps);
        text.push_str(&format!("instructions and comparisons {followed}\n"));
        text.push_str(&format!("steps of the answers {steps}\n"));
        let least = self.met.iter().min().copied().unwrap_or(0);
        text.push_str(&format!(
            "rarest of the {INSTRUCTION_KINDS} instructions {least}\n"
        ));
        text.push_str(&self.limits.report("runs under a limit"));
        text.push_str(&self.board.report());
        text.push_str(&self.fills.report());
        text.push_str(&self.least.report());
        text.push_str(&self.scales.report());
        text
    }
}
