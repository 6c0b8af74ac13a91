//! What was met on the board: the answers, the sums that were completed, the
//! overflow that an Adox64 read behind one, and in what a run ended otherwise
//! than by the base evaluation.

use crate::answer::Outcome;
use crate::counts::Counts;
use crate::limit_tally::LimitTally;
use crate::sums::{Adder, Edge, Sum, SumLog, ADDERS, EDGES};
use crate::tally::{class, end_classes};

#[derive(Default)]
pub struct BoardTally {
    counts: Counts,
    runs: u64,
    /// Runs that the program under test cannot make, as it takes no terms.
    pub not_taken: u64,
    pub limits: LimitTally,
}

const BOTH: [bool; 2] = [false, true];

fn set(bit: bool) -> &'static str {
    match bit {
        true => "set",
        false => "clear",
    }
}

fn sign(negative: bool) -> &'static str {
    match negative {
        true => "negative",
        false => "non-negative",
    }
}

fn signs_label(adder: Adder, [dst, src]: [bool; 2], overflow: bool) -> String {
    let (dst, src) = (sign(dst), sign(src));
    format!("{adder:?}: {dst} and {src}, overflow {}", set(overflow))
}

/// A carry makes the difference here, in AddCarry64 alone.
fn edge_label(adder: Adder, edge: Edge, old_carry: bool) -> String {
    let carry = set(old_carry);
    match edge {
        Edge::Top => format!("{adder:?}: one more would leave, carry {carry}"),
        Edge::Bottom => format!("{adder:?}: one more would come back, carry {carry}"),
    }
}

fn overflow_label(who: &str, was: bool, is: bool) -> String {
    format!("{who}: overflow was {}, is {}", set(was), set(is))
}

fn fill_label(adder: Adder, bit: &str, fill: bool, is: bool) -> String {
    format!("{adder:?}: {bit} {} in fill, is {}", set(fill), set(is))
}

fn others_label(adder: Adder) -> String {
    format!("{adder:?}: other bits were not fill's")
}

fn reader(adder: Adder) -> String {
    format!("Adox64 behind {adder:?}")
}

fn labels_of(sum: &Sum) -> Vec<String> {
    let (adder, fill, after) = (sum.adder, sum.fill, sum.after);
    let name = format!("{adder:?}");
    let mut labels = vec![
        signs_label(adder, sum.negative, after.overflow),
        overflow_label(&name, sum.before.overflow, after.overflow),
        fill_label(adder, "overflow", fill.overflow, after.overflow),
        fill_label(adder, "carry", fill.carry, after.carry),
    ];
    let edge = sum.edge.map(|e| edge_label(adder, e, sum.before.carry));
    labels.extend(edge);
    labels.extend(sum.others_differ.then(|| others_label(adder)));
    labels
}

/// All the sums that can be met. Operands of two signs stay in the range.
fn sum_labels() -> Vec<String> {
    let mut labels = Vec::new();
    for adder in ADDERS {
        let name = format!("{adder:?}");
        for (a, b) in BOTH.map(|a| BOTH.map(|b| (a, b))).concat() {
            labels.push(signs_label(adder, [a, b], false));
            labels.push(overflow_label(&name, a, b));
            labels.push(fill_label(adder, "overflow", a, b));
            labels.push(fill_label(adder, "carry", a, b));
            labels.push(overflow_label(&reader(adder), a, b));
        }
        labels.extend(BOTH.map(|negative| signs_label(adder, [negative; 2], true)));
        for edge in EDGES {
            labels.extend(BOTH.map(|carry| edge_label(adder, edge, carry)));
        }
        labels.push(others_label(adder));
    }
    labels
}

/// What a run can end otherwise in.
pub const PARTS: [&str; 6] = [
    "answer",
    "steps",
    "registers",
    "xmm words",
    "cells",
    "flags",
];

fn part_label(part: &str) -> String {
    format!("ends otherwise than by the base in {part}")
}

const FLAGS_ALONE: &str = "ends otherwise than by the base in flags alone";

/// The parts that differ; a refused run has none.
pub fn parts_of(base: &Outcome, board: &Outcome) -> Vec<&'static str> {
    let (Some((a, a_cells)), Some((b, b_cells))) = (&base.end, &board.end) else {
        return Vec::new();
    };
    let differs = [
        base.answer != board.answer,
        base.steps != board.steps,
        a.regs != b.regs,
        a.xmms != b.xmms,
        a_cells != b_cells,
        a.flags != b.flags,
    ];
    let found = PARTS.into_iter().zip(differs);
    found.filter_map(|(part, d)| d.then_some(part)).collect()
}

fn ending_labels() -> Vec<String> {
    let mut labels: Vec<String> = PARTS.map(part_label).into();
    labels.push(FLAGS_ALONE.to_string());
    labels
}

impl BoardTally {
    /// A run by either evaluation, and the sums of the board's.
    pub fn add(&mut self, base: &Outcome, board: &Outcome, sums: &SumLog) {
        self.runs += 1;
        self.counts.count(class(&board.answer));
        for (sum, count) in &sums.completed {
            for label in labels_of(sum) {
                self.counts.add(label, *count);
            }
        }
        for (sum, count) in &sums.read {
            let (was, is) = (sum.before.overflow, sum.after.overflow);
            let label = overflow_label(&reader(sum.adder), was, is);
            self.counts.add(label, *count);
        }
        let parts = parts_of(base, board);
        if parts == ["flags"] {
            self.counts.count(FLAGS_ALONE.to_string());
        }
        for part in parts {
            self.counts.count(part_label(part));
        }
    }

    /// What a batch has to meet and did not. Nothing is missing from a program
    /// that takes no terms.
    pub fn missing(&self) -> Vec<String> {
        if self.not_taken > 0 {
            return Vec::new();
        }
        let mut missing = self.missing_ends();
        missing.extend(self.limits.missing());
        let on_board = |label: String| format!("on the board: {label}");
        missing.into_iter().map(on_board).collect()
    }

    /// The same without step limits.
    pub fn missing_ends(&self) -> Vec<String> {
        let labels = [end_classes(), sum_labels(), ending_labels()];
        self.counts.missing(labels.concat())
    }

    pub fn report(&self) -> String {
        let mut text = format!("runs on the board {}\n", self.runs);
        text.push_str(&self.counts.report());
        text.push_str(&self.limits.report("runs on the board under a limit"));
        text
    }
}

#[cfg(test)]
#[path = "board_tally_tests.rs"]
mod tests;
