//! What was met of the least fuel: where it stood from the cap and how its run ended,
//! which loop made it, what a step limit changed of it, and 61.

use crate::answer::{Answer, Outcome};
use crate::caps::{limit_names, CAPS};
use crate::counts::{by, by_either, Counts};
use crate::least::{Least, Report, Tries};
use crate::limit_tally::{end_of, limit_label, next_name, IN_PLACE};
use crate::places::{loops_around, next_at, test_of, Next, NEXTS};
use crate::terms::{Evaluation, Terms};
use crate::tree::Code;

#[derive(Default)]
pub struct LeastTally {
    counts: Counts,
    asked: u64,
    searches: u64,
    /// Caps that were left out, as fuel was not tried as far as it takes to tell.
    pub left_out: u64,
    /// Jobs that the program under test cannot be asked about.
    pub not_taken: u64,
}

/// Fuel that was tried for accepted code on some terms.
pub struct Searched<'a> {
    pub code: &'a Code,
    pub terms: Terms,
    pub tries: &'a Tries,
    /// Without a step limit, by the same evaluation.
    pub unlimited: &'a Tries,
}

/// How a run can end that is not Spent.
const ENDS: [&str; 3] = ["done", "fault", "stopped"];

fn cap_label(name: &str) -> String {
    format!("cap {name}")
}

/// With fuel 0 a run is not Spent only if it meets no loop test.
fn zero_label(end: &str) -> String {
    format!("no loop test, least fuel 0, {end}")
}

fn least_label(side: &str, end: &str) -> String {
    format!("least fuel {side} the cap, {end}")
}

fn refused_label(number: u8) -> String {
    match number {
        1..=7 => "refused for code".to_string(),
        _ => "refused for cells".to_string(),
    }
}

const SPENT: &str = "61";
const LOWERED: &str = "a step limit makes it less";
const ENDED: &str = "a step limit makes it, where no try was enough";

fn stop_label(next: Next) -> String {
    format!("made, then stopped at {}", next_name(next))
}

fn in_place() -> String {
    format!("made, then stopped {IN_PLACE}")
}

/// Its comparison is met with just enough fuel, and not completed.
fn right_behind(end: &str) -> String {
    format!("made by the last test, {end} right behind it")
}

fn maker_label(inner: bool) -> String {
    match inner {
        true => "made by an inner loop".to_string(),
        false => "made by a loop in no other".to_string(),
    }
}

const AHEAD: &str = "made ahead of the first test of another loop";
const ANOTHER: &str = "the least fuel is another on the board";

fn end_labels() -> Vec<String> {
    let mut labels: Vec<String> = ENDS.map(zero_label).into();
    for side in ["at", "below"] {
        labels.extend(ENDS.map(|end| least_label(side, end)));
    }
    labels.extend([1, 13].map(refused_label));
    labels.extend([SPENT, LOWERED, ENDED, AHEAD].map(str::to_string));
    labels.extend(NEXTS.map(stop_label));
    labels.push(in_place());
    labels.extend(["fault", "stopped"].map(right_behind));
    labels.extend([false, true].map(maker_label));
    labels
}

fn name_labels() -> Vec<String> {
    let caps = CAPS.iter().map(|(name, _)| cap_label(name));
    caps.chain(limit_names().into_iter().map(limit_label))
        .collect()
}

// Searches.
impl LeastTally {
    /// A search of which a least fuel was compared, if one was found.
    pub fn searched(&mut self, searched: &Searched) {
        self.searches += 1;
        for label in [lowered(searched), made(searched)].concat() {
            self.counts.count(by(searched.terms.evaluation, &label));
        }
    }

    /// The least fuels of one code without a step limit, by each evaluation by which
    /// it was compared.
    pub fn by_both(&mut self, found: &[Option<u32>]) {
        if let [Some(base), Some(board)] = found {
            if base != board {
                self.counts.count(ANOTHER.to_string());
            }
        }
    }

    /// A limit of this name was drawn.
    pub fn drew_limit(&mut self, evaluation: Evaluation, name: &str) {
        self.counts.count(by(evaluation, &limit_label(name)));
    }
}

/// What made a least fuel above 0 is told by the run with one less, which is Spent at
/// the loop that needs it.
fn made(searched: &Searched) -> Vec<String> {
    let (code, tried) = (searched.code, &searched.tries.tried[..]);
    let [.., before, run] = tried else {
        return Vec::new();
    };
    let Answer::Spent(maker) = before.outcome.answer else {
        return Vec::new();
    };
    if run.outcome.is_spent() {
        return Vec::new();
    }
    let mut labels = vec![maker_label(loops_around(code, maker) != Some(0))];
    if before.outcome.steps == run.outcome.steps {
        labels.push(right_behind(end_of(&run.outcome.answer)));
    }
    let is_test = |place: usize| next_at(code, place) == Some(Next::Test);
    let mut new = run.completed.difference(&before.completed);
    if new.any(|&place| place != test_of(maker) && is_test(place)) {
        labels.push(AHEAD.to_string());
    }
    labels.extend(stopped(searched, &run.outcome));
    labels
}

fn stopped(searched: &Searched, run: &Outcome) -> Vec<String> {
    let Answer::Stopped(_, place) = run.answer else {
        return Vec::new();
    };
    let next = next_at(searched.code, place).map(stop_label);
    let mut labels: Vec<String> = next.into_iter().collect();
    let fails = |unlimited: &Outcome| {
        let here = matches!(unlimited.answer, Answer::Fault(_, at) if at == place);
        here && unlimited.steps == run.steps
    };
    if searched.unlimited.last().is_some_and(|u| fails(&u.outcome)) {
        labels.push(in_place());
    }
    labels
}

fn lowered(searched: &Searched) -> Vec<String> {
    match (searched.tries.found(), searched.unlimited.found()) {
        (Some(limited), Some(unlimited)) if limited < unlimited => vec![LOWERED.to_string()],
        (Some(_), None) => vec![ENDED.to_string()],
        _ => Vec::new(),
    }
}

// Reports.
impl LeastTally {
    /// A cap of this name was drawn.
    pub fn drew_cap(&mut self, evaluation: Evaluation, name: &str) {
        self.counts.count(by(evaluation, &cap_label(name)));
    }

    pub fn asked(&mut self, evaluation: Evaluation, cap: u32, least: &Least) {
        self.asked += 1;
        let end = end_of(&least.outcome.answer);
        let label = match (least.report, least.outcome.answer) {
            (_, Answer::Refused(number, _)) => refused_label(number),
            (Report::Fuel(0), _) => zero_label(end),
            (Report::Fuel(fuel), _) if fuel == cap => least_label("at", end),
            (Report::Fuel(_), _) => least_label("below", end),
            _ => SPENT.to_string(),
        };
        self.counts.count(by(evaluation, &label));
    }
}

// What was met.
impl LeastTally {
    /// What a batch has to meet and did not. Nothing is missing from a program that
    /// cannot be asked.
    pub fn missing(&self) -> Vec<String> {
        if self.not_taken > 0 {
            return Vec::new();
        }
        let mut labels = self.counts.missing(by_either(&name_labels()));
        labels.extend(self.missing_ends());
        labels
    }

    /// The same without the names of caps and limits.
    pub fn missing_ends(&self) -> Vec<String> {
        let mut labels = by_either(&end_labels());
        labels.push(ANOTHER.to_string());
        self.counts.missing(labels)
    }

    /// Reports that were compared, and searches that they were from.
    pub fn compared(&self) -> [u64; 2] {
        [self.asked, self.searches]
    }

    pub fn report(&self) -> String {
        let ([asked, searches], left_out) = (self.compared(), self.left_out);
        let head = format!("least fuels {asked}, of searches {searches}, left out {left_out}\n");
        head + &self.counts.report()
    }
}

#[cfg(test)]
#[path = "least_tally_tests.rs"]
mod tests;
