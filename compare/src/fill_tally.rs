//! What was met of the watch: which instruction marked it, how marked and
//! unmarked runs ended, readers that came too late to mark it, and what other
//! fill words changed.

use crate::answer::{Answer, Outcome};
use crate::board_tally::{parts_of, PARTS};
use crate::counts::{by, by_either, Counts};
use crate::fills::FILLS;
use crate::limit_tally::end_of;
use crate::places::instruction_at;
use crate::run::Followed;
use crate::terms::Evaluation;
use crate::tree::{Code, Instruction};
use crate::watch::Watch;

#[derive(Default)]
pub struct FillTally {
    counts: Counts,
    runs: u64,
    reruns: u64,
    /// Reruns of unmarked runs, of which something is claimed.
    claimed: u64,
    /// Marked runs that another fill word made too long to be run.
    pub too_long: u64,
    /// Runs that the program under test cannot make, as it takes no terms.
    pub not_taken: u64,
}

/// A run with another fill word: the job's own and the other, and the outcomes.
pub struct Rerun<'a> {
    pub evaluation: Evaluation,
    pub fills: [u64; 2],
    pub before: &'a Outcome,
    pub after: &'a Outcome,
}

const READERS: [&str; 3] = ["AddCarry64", "Adcx64", "Adox64"];
const ENDS: [&str; 4] = ["done", "fault", "spent", "stopped"];
const BOTH: [bool; 2] = [false, true];

/// An instruction that goes by a flag, and whether that flag is open.
fn reader_of(ins: Instruction, watch: Watch) -> Option<(&'static str, bool)> {
    match ins {
        Instruction::AddCarry64(..) => Some(("AddCarry64", watch.carry_open)),
        Instruction::Adcx64(..) => Some(("Adcx64", watch.carry_open)),
        Instruction::Adox64(..) => Some(("Adox64", watch.overflow_open)),
        _ => None,
    }
}

/// The reader of an open flag that stands at the place.
pub fn open_reader_at(code: &Code, place: usize, watch: Watch) -> Option<&'static str> {
    let (name, open) = reader_of(instruction_at(code, place)?, watch)?;
    open.then_some(name)
}

fn end_label(marked: bool, [carry, overflow]: [bool; 2], end: &str) -> String {
    let mark = if marked { "marked" } else { "unmarked" };
    let open = match (carry, overflow) {
        (false, false) => "nothing open",
        (true, false) => "carry open",
        (false, true) => "overflow open",
        (true, true) => "both open",
    };
    format!("{mark}, {open}, {end}")
}

fn mark_label(reader: &str) -> String {
    format!("marked by {reader}")
}

const READ_ELSEWHERE: &str = "marked, and an open flag read elsewhere behind";

/// A reader that does not complete does not mark.
fn late_label(reader: &str, end: &str) -> String {
    format!("unmarked, {end} at {reader} with its flag open")
}

fn fill_label(name: &str) -> String {
    format!("fill word {name}")
}

/// A flag in which the fill words differ: an open one goes with them.
fn flag_label(flag: &str, open: bool) -> String {
    match open {
        true => format!("unmarked, open {flag} went with the fill word"),
        false => format!("unmarked, closed {flag} did not"),
    }
}

const ALIKE: &str = "marked, ended alike with another fill word";
const OTHERWISE: &str = "marked, ended otherwise with another fill word";

/// Flags are left out: they may also change where nothing was read.
fn part_label(part: &str) -> String {
    format!("marked, ended otherwise in {part}")
}

const NOT_ON_BOARD: &str = "marked by the base evaluation and not on the board";

/// An unmarked run cannot end with the carry alone open: what closes overflow
/// alone has read it open.
fn end_labels() -> Vec<String> {
    let mut labels: Vec<String> = READERS.map(mark_label).into();
    labels.push(READ_ELSEWHERE.to_string());
    for end in ENDS {
        for (carry, overflow) in BOTH.map(|c| BOTH.map(|o| (c, o))).concat() {
            labels.push(end_label(true, [carry, overflow], end));
            if overflow || !carry {
                labels.push(end_label(false, [carry, overflow], end));
            }
        }
    }
    for end in ["fault", "stopped"] {
        labels.extend(READERS.map(|reader| late_label(reader, end)));
    }
    labels
}

fn rerun_labels() -> Vec<String> {
    let mut labels = vec![ALIKE.to_string(), OTHERWISE.to_string()];
    for open in BOTH {
        labels.extend(["carry", "overflow"].map(|flag| flag_label(flag, open)));
    }
    let parts = PARTS.iter().filter(|part| **part != "flags");
    labels.extend(parts.map(|part| part_label(part)));
    labels
}

// Runs.
impl FillTally {
    pub fn ran(&mut self, evaluation: Evaluation, code: &Code, run: &Followed) {
        self.runs += 1;
        for label in labels_of(code, run) {
            self.counts.count(by(evaluation, &label));
        }
    }

    /// Whether a job's run was marked, by each evaluation.
    pub fn by_both(&mut self, marked: &[bool]) {
        if marked == [true, false] {
            self.counts.count(NOT_ON_BOARD.to_string());
        }
    }
}

fn labels_of(code: &Code, run: &Followed) -> Vec<String> {
    let Outcome { answer, watch, .. } = run.outcome;
    let (end, open) = (end_of(&answer), [watch.carry_open, watch.overflow_open]);
    let mut labels = vec![end_label(watch.mark.is_some(), open, end)];
    if let Some(place) = watch.mark {
        let marking = instruction_at(code, place).and_then(|ins| reader_of(ins, watch));
        labels.push(mark_label(marking.map_or("nothing", |(name, _)| name)));
        let elsewhere = run.reads.last != watch.mark;
        labels.extend(elsewhere.then(|| READ_ELSEWHERE.to_string()));
        return labels;
    }
    if let Answer::Fault(_, place) | Answer::Stopped(_, place) = answer {
        let late = open_reader_at(code, place, watch);
        labels.extend(late.map(|reader| late_label(reader, end)));
    }
    labels
}

// Reruns.
impl FillTally {
    /// Another fill word of this name was drawn.
    pub fn drew(&mut self, evaluation: Evaluation, name: &str) {
        self.counts.count(by(evaluation, &fill_label(name)));
    }

    pub fn reran(&mut self, rerun: &Rerun) {
        self.reruns += 1;
        let labels = match rerun.before.watch.mark {
            Some(_) => otherwise_in(rerun),
            None => {
                self.claimed += 1;
                flags_of(rerun)
            }
        };
        for label in labels {
            self.counts.count(by(rerun.evaluation, &label));
        }
    }
}

fn flags_of(rerun: &Rerun) -> Vec<String> {
    if rerun.before.end.is_none() {
        return Vec::new();
    }
    let [own, other] = rerun.fills;
    let watch = rerun.before.watch;
    let flags = [
        ("carry", 1, watch.carry_open),
        ("overflow", 2048, watch.overflow_open),
    ];
    let changed = flags.iter().filter(|(_, bit, _)| (own ^ other) & bit != 0);
    changed
        .map(|(flag, _, open)| flag_label(flag, *open))
        .collect()
}

fn otherwise_in(rerun: &Rerun) -> Vec<String> {
    let mut parts = parts_of(rerun.before, rerun.after);
    parts.retain(|part| *part != "flags");
    let whole = if parts.is_empty() { ALIKE } else { OTHERWISE };
    let mut labels = vec![whole.to_string()];
    labels.extend(parts.into_iter().map(part_label));
    labels
}

// What was met.
impl FillTally {
    /// What a batch has to meet and did not. Nothing is missing from a program
    /// that takes no terms.
    pub fn missing(&self) -> Vec<String> {
        if self.not_taken > 0 {
            return Vec::new();
        }
        let names: Vec<String> = FILLS.iter().map(|(name, _)| fill_label(name)).collect();
        let mut labels = self.counts.missing(by_either(&names));
        labels.extend(self.missing_ends());
        labels
    }

    /// The same without the names of the fill words.
    pub fn missing_ends(&self) -> Vec<String> {
        let mut labels = by_either(&[end_labels(), rerun_labels()].concat());
        labels.push(NOT_ON_BOARD.to_string());
        self.counts.missing(labels)
    }

    /// Runs, those with other fill words, and how many of these were claimed.
    pub fn compared(&self) -> [u64; 3] {
        [self.runs, self.reruns, self.claimed]
    }

    pub fn report(&self) -> String {
        let [runs, reruns, claimed] = self.compared();
        let mut text = format!("runs with the watch {runs}\n");
        text.push_str(&format!(
            "runs with other fill words {reruns}, of unmarked ones {claimed}, left out {}\n",
            self.too_long
        ));
        text.push_str(&self.counts.report());
        text
    }
}

#[cfg(test)]
#[path = "fill_tally_tests.rs"]
mod tests;
