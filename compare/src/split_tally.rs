//! What lists of cells and their splits met.

use crate::cells::TOP;
use crate::checkers::Answer;
use std::cmp::Ordering;
use std::collections::BTreeMap;

/// From here on a comparison has to meet everything.
const FULL: u64 = 4_000;

/// The refusals that name a cell.
const RULES: [u8; 3] = [13, 14, 15];

/// Where the refused cell is, seen from the split: in the front, the first of
/// the rest, or behind that.
#[derive(Clone, Copy, PartialEq, Eq, PartialOrd, Ord)]
enum Side {
    Before,
    First,
    Behind,
}

const SIDES: [Side; 3] = [Side::Before, Side::First, Side::Behind];

#[derive(Clone, Copy, PartialEq, Eq, PartialOrd, Ord)]
enum Met {
    Accepted,
    Refused(u8),
    Split(u8, Side),
    /// The front ends at 2^64 and is all.
    TopIsAll,
    /// It ends there, and the next cell is refused with this number.
    BehindTop(u8),
    /// From the end 0 the rest would have been answered otherwise.
    NotFromZero,
}

/// All that can be met. Nothing behind the top is accepted, as every address
/// is below 2^64.
fn every() -> Vec<Met> {
    let mut all = vec![Met::Accepted];
    all.extend([11, 12].map(Met::Refused));
    all.extend(RULES.map(Met::Refused));
    for number in RULES {
        all.extend(SIDES.map(|side| Met::Split(number, side)));
    }
    all.push(Met::TopIsAll);
    all.extend(RULES.map(Met::BehindTop));
    all.push(Met::NotFromZero);
    all
}

fn name(met: Met) -> String {
    match met {
        Met::Accepted => "accepted".to_string(),
        Met::Refused(number) => format!("refused {number}"),
        Met::Split(number, Side::Before) => format!("split, {number} before it"),
        Met::Split(number, Side::First) => format!("split, {number} at the first of the rest"),
        Met::Split(number, Side::Behind) => format!("split, {number} behind the first of the rest"),
        Met::TopIsAll => "split, the front ends at 2^64, nothing behind".to_string(),
        Met::BehindTop(number) => format!("split, the front ends at 2^64, {number} behind"),
        Met::NotFromZero => "split, from the end 0 another answer".to_string(),
    }
}

#[derive(Default)]
pub struct SplitTally {
    lists: u64,
    splits: u64,
    accepted_fronts: u64,
    met: BTreeMap<Met, u64>,
}

impl SplitTally {
    /// A list's answer.
    pub fn add(&mut self, answer: Answer) {
        self.lists += 1;
        self.count(match answer {
            Ok(()) => Met::Accepted,
            Err(trouble) => Met::Refused(trouble.number),
        });
    }

    /// A split of a list with this answer.
    pub fn split(&mut self, at: usize, answer: Answer) {
        self.splits += 1;
        if let Err(trouble) = answer {
            let side = match trouble.place.cmp(&at) {
                Ordering::Less => Side::Before,
                Ordering::Equal => Side::First,
                Ordering::Greater => Side::Behind,
            };
            self.count(Met::Split(trouble.number, side));
        }
    }

    /// A split whose front was accepted and left `end`; `from_zero` is what
    /// the rest is answered from the end 0.
    pub fn joint(&mut self, end: u128, from_zero: Answer, answer: Answer) {
        self.accepted_fronts += 1;
        if from_zero != answer {
            self.count(Met::NotFromZero);
        }
        if end == TOP {
            self.count(match answer {
                Ok(()) => Met::TopIsAll,
                Err(trouble) => Met::BehindTop(trouble.number),
            });
        }
    }

    fn count(&mut self, met: Met) {
        *self.met.entry(met).or_insert(0) += 1;
    }

    fn times(&self, met: Met) -> u64 {
        self.met.get(&met).copied().unwrap_or(0)
    }

    /// What can be met and was not.
    pub fn missing(&self) -> Vec<String> {
        let absent = every().into_iter().filter(|&met| self.times(met) == 0);
        absent.map(name).collect()
    }

    /// Whether a comparison of this size met what it ought to.
    pub fn verdict(&self) -> Result<(), String> {
        let missing = self.missing();
        if self.lists >= FULL && !missing.is_empty() {
            return Err(format!("never met: {}", missing.join(", ")));
        }
        Ok(())
    }

    pub fn report(&self) -> String {
        let (lists, splits, fronts) = (self.lists, self.splits, self.accepted_fronts);
        let mut text = format!("{lists} lists, {splits} splits, {fronts} with an accepted front\n");
        for met in every() {
            text.push_str(&format!("  {:<46} {:>9}\n", name(met), self.times(met)));
        }
        text
    }
}

#[cfg(test)]
mod tests {
    use super::*;

    #[test]
    fn what_has_to_be_met() {
        let mut tally = SplitTally::default();
        assert_eq!(tally.missing().len(), 6 + 9 + 4 + 1);
        tally.lists = FULL - 1;
        assert_eq!(tally.verdict(), Ok(()));
        tally.lists = FULL;
        assert!(tally.verdict().is_err());
        for met in every() {
            tally.count(met);
        }
        assert_eq!(tally.verdict(), Ok(()));
    }
}
