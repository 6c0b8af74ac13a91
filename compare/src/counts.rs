//! How often each label was met, for the tallies of a comparison.

use crate::terms::{Evaluation, EVALUATIONS};
use std::collections::BTreeMap;

#[derive(Default)]
pub struct Counts(pub BTreeMap<String, u64>);

impl Counts {
    pub fn count(&mut self, label: String) {
        self.add(label, 1);
    }

    pub fn add(&mut self, label: String, times: u64) {
        *self.0.entry(label).or_insert(0) += times;
    }

    /// Those that were not met.
    pub fn missing(&self, mut labels: Vec<String>) -> Vec<String> {
        labels.retain(|label| !self.0.contains_key(label));
        labels
    }

    pub fn report(&self) -> String {
        let line = |(label, count)| format!("  {label:<56} {count:>8}\n");
        self.0.iter().map(line).collect()
    }
}

/// What is met by each evaluation has a label for each.
pub fn by(evaluation: Evaluation, what: &str) -> String {
    format!("{}: {what}", evaluation.name())
}

pub fn by_either(labels: &[String]) -> Vec<String> {
    let named = |e: Evaluation| labels.iter().map(move |label| by(e, label));
    EVALUATIONS.into_iter().flat_map(named).collect()
}

#[cfg(test)]
mod tests {
    use super::*;

    #[test]
    fn labels_that_were_met() {
        let mut counts = Counts::default();
        counts.count("b".to_string());
        counts.add("a".to_string(), 20);
        counts.count("b".to_string());
        let all = ["a", "b", "c"].map(str::to_string);
        assert_eq!(counts.missing(all.to_vec()), ["c"]);
        let space = " ".repeat(55);
        let lines = format!("  a{space}       20\n  b{space}        2\n");
        assert_eq!(counts.report(), lines);
        let named = by_either(&all[..2]);
        assert_eq!(named, ["base: a", "base: b", "board: a", "board: b"]);
    }
}
