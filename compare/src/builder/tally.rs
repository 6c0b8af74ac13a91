//! What the lists met: the answers by where the build stood, and the kinds.

use super::model::{PartKind, Stand};
use super::record::{Entry, RawCall};
use crate::reader::{DEEPEST, LONGEST};
use crate::scale_tally::{Both, BOTH};
use crate::tree::INSTRUCTION_KINDS;
use std::collections::BTreeMap;

/// Where a call met the build (None where it was damaged), and its answer.
#[derive(Clone, Copy, PartialEq, Eq, PartialOrd, Ord)]
pub struct Met {
    pub stand: Option<Stand>,
    pub answer: u8,
}

/// From here on a comparison has to meet everything.
const FULL: u64 = 1_000;

const ANSWERS: [u8; 7] = [0, 2, 51, 4, 7, 53, 52];

/// Each place with the answers that can be had there. A Block takes whatever
/// comes; no code is too deep as the outermost one, nor in a false part, whose
/// true part had a code as deep.
const STANDS: [(&str, Option<Stand>, &[u8]); 7] = [
    ("nothing yet", Some(Stand::Begun), &[0, 2, 51, 4, 7, 52]),
    (
        "Block",
        Some(Stand::In(PartKind::Block)),
        &[0, 2, 4, 7, 53, 52],
    ),
    ("true part", Some(Stand::In(PartKind::True)), &ANSWERS),
    (
        "false part",
        Some(Stand::In(PartKind::False)),
        &[0, 2, 51, 4, 7, 52],
    ),
    ("While part", Some(Stand::In(PartKind::While)), &ANSWERS),
    ("finished", Some(Stand::Finished), &[2, 51]),
    ("damaged", None, &ANSWERS),
];

/// Each function of the interface, with each kind that it takes.
fn every_call() -> impl Iterator<Item = (Entry, Option<u8>)> {
    let plain = [(Entry::OpenBlock, None), (Entry::Close, None)];
    let added = (1..=INSTRUCTION_KINDS as u8).map(|kind| (Entry::Add, Some(kind)));
    let opened = (0x30..=0x35).flat_map(|kind| {
        let entries = [Entry::OpenIfElse, Entry::OpenWhile];
        entries.map(|entry| (entry, Some(kind)))
    });
    plain.into_iter().chain(added).chain(opened)
}

#[derive(Default)]
pub struct Tally {
    pub lists: u64,
    pub deepest: usize,
    met: BTreeMap<Met, u64>,
    /// Calls that were taken, with the kind of their record.
    taken: BTreeMap<(Entry, Option<u8>), u64>,
    /// Records with two bad fields in one operand, by which of them decided.
    both: BTreeMap<Both, u64>,
    finished: u64,
    longest: usize,
    differences: u64,
    first: Option<String>,
}

/// Which of two bad fields in one operand a refused record was refused for.
fn decided(call: &RawCall) -> Option<Both> {
    let call = call.value()?;
    Both::of(&call.alone()?, call.bad_field()?)
}

impl Tally {
    pub fn add(&mut self, met: Met, call: &RawCall) {
        *self.met.entry(met).or_insert(0) += 1;
        if met.answer == 0 {
            let kind = call.entry.takes_a_record().then_some(call.record.kind);
            *self.taken.entry((call.entry, kind)).or_insert(0) += 1;
        }
        if let (4 | 7, Some(both)) = (met.answer, decided(call)) {
            *self.both.entry(both).or_insert(0) += 1;
        }
    }

    pub fn finish(&mut self, length: usize) {
        self.finished += 1;
        self.longest = self.longest.max(length);
    }

    pub fn differ(&mut self, what: String) {
        self.differences += 1;
        self.first.get_or_insert(what);
    }

    /// The first difference, or what a comparison of this size ought to have
    /// met.
    pub fn verdict(&self) -> Result<(), String> {
        if let Some(first) = &self.first {
            return Err(format!("the first difference: {first}"));
        }
        let missing = self.missing();
        if self.lists >= FULL && !missing.is_empty() {
            return Err(format!("never met: {}", missing.join(", ")));
        }
        Ok(())
    }

    fn count(&self, stand: Option<Stand>, answer: u8) -> u64 {
        let met = Met { stand, answer };
        self.met.get(&met).copied().unwrap_or(0)
    }

    /// What can be met and was not.
    pub fn missing(&self) -> Vec<String> {
        let mut missing = Vec::new();
        for (name, stand, answers) in STANDS {
            let absent = answers.iter().filter(|&&a| self.count(stand, a) == 0);
            missing.extend(absent.map(|answer| format!("{answer} at {name}")));
        }
        let absent = every_call().filter(|call| !self.taken.contains_key(call));
        missing.extend(absent.map(|(entry, kind)| format!("{entry:?} {kind:x?}")));
        let absent = BOTH.iter().filter(|both| !self.both.contains_key(both));
        missing.extend(absent.map(|both| both.label()));
        if self.deepest < DEEPEST {
            missing.push(format!("{DEEPEST} open parts"));
        }
        if self.longest < LONGEST {
            missing.push(format!("a finished build of {LONGEST} bytes"));
        }
        missing
    }

    pub fn report(&self) -> String {
        let calls: u64 = self.met.values().sum();
        let mut text = format!(
            "{} lists, {calls} calls, {} finished builds\n{:<12}",
            self.lists, self.finished, "answers"
        );
        for answer in ANSWERS {
            text.push_str(&format!("{answer:>9}"));
        }
        for (name, stand, _) in STANDS {
            text.push_str(&format!("\n{name:<12}"));
            for answer in ANSWERS {
                text.push_str(&format!("{:>9}", self.count(stand, answer)));
            }
        }
        text.push_str(&format!("\n{:<12}", "all"));
        for answer in ANSWERS {
            let all = self.met.iter().filter(|(met, _)| met.answer == answer);
            text.push_str(&format!("{:>9}", all.map(|(_, n)| n).sum::<u64>()));
        }
        let rarest = every_call().map(|call| self.taken.get(&call).copied().unwrap_or(0));
        text.push_str(&format!(
            "\nrarest function with a kind, taken {}\n",
            rarest.min().unwrap_or(0)
        ));
        for (both, count) in &self.both {
            text.push_str(&format!("{} {count}\n", both.label()));
        }
        text.push_str(&format!(
            "at most {} open parts, {} bytes finished\ndifferences {}\n",
            self.deepest, self.longest, self.differences
        ));
        text
    }
}
