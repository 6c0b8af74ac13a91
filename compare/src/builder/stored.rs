//! Stored lists of calls, with the answer, the build and the buffer that this
//! side expects after each.
//!
//! A file is a run of steps. A step is a head of 21 bytes; the 67 bytes of a
//! record, where the call is given one; and bytes of the buffer. Numbers have
//! their low byte first. The head:
//!
//! | bytes | |
//! |---|---|
//! | 1 | kind: 0 begin, 1 open a Block, 2 an IfElse, 3 a While, 4 add, 5 close, 6 damage, 7 a new list |
//! | 4 | how many bytes of the buffer are lent |
//! | 1 | answer; of a new list the buffer's first byte, each further one is one more |
//! | 2, 2 | length and depth |
//! | 1, 1, 2, 2 | an index with the entries of parts, fields and starts that stand there |
//! | 4, 1 | place and count of the bytes of the buffer that follow |
//!
//! The build is that before the step (after a begin, zeros) but for what the
//! head says, the buffer that before the step but for these bytes.

use super::damage::damage;
use super::forged::Build;
use super::lists::list;
use super::maker::Step;
use super::model::{Model, Stand};
use super::own::Own;
use super::record::{Entry, RawCall, Record};
use super::tally::{Met, Tally};
use crate::rng::Rng;

const BEGIN: u8 = 0;
const DAMAGE: u8 = 6;
const NEW: u8 = 7;

/// Calls, and the lists that they stand in.
#[derive(Clone, Copy, Debug, Default, PartialEq, Eq)]
pub struct Count {
    pub lists: usize,
    pub calls: usize,
}

/// Writes lists down while they are followed. The build of one list is what
/// the next one begins over.
pub struct Recorder {
    own: Own,
    out: Vec<u8>,
    count: Count,
    tally: Tally,
}

/// A file, and what is in it.
pub type Stored = (Vec<u8>, Count);

/// What a step is besides what it leaves.
struct Head<'a> {
    kind: u8,
    lent: usize,
    answer: u8,
    record: Option<&'a Record>,
}

// Steps.
impl Recorder {
    pub fn new() -> Recorder {
        Recorder {
            own: Own::new(Build::default(), Vec::new()),
            out: Vec::new(),
            count: Count::default(),
            tally: Tally::default(),
        }
    }

    /// A new list, with a buffer of so many bytes, and a build begun in it.
    pub fn list(&mut self, room: usize) {
        self.count.lists += 1;
        let first = (37 * self.count.lists) as u8;
        let byte = |i: usize| first.wrapping_add(i as u8);
        let before = self.own.build.clone();
        self.own = Own::new(before.clone(), (0..room).map(byte).collect());
        let buffer = self.own.buffer.clone();
        self.push(head(NEW, room, first), &before, &buffer);
        self.begin();
    }

    pub fn begin(&mut self) {
        let buffer = self.own.buffer.clone();
        self.own.begin();
        self.count.calls += 1;
        self.push(head(BEGIN, buffer.len(), 0), &Build::default(), &buffer);
    }

    /// Changes at most one entry of each array of the build.
    pub fn damage(&mut self, change: impl FnOnce(&mut Build, &mut [u8])) {
        let (build, buffer) = (self.own.build.clone(), self.own.buffer.clone());
        self.own.damage(change);
        self.push(head(DAMAGE, buffer.len(), 0), &build, &buffer);
    }

    pub fn call(&mut self, raw: &RawCall, lent: usize) -> u8 {
        let (build, buffer) = (self.own.build.clone(), self.own.buffer.clone());
        let stand = self.own.model.as_ref().map(Model::stand);
        let answer = self.own.call(raw, lent);
        self.count.calls += 1;
        self.tally.add(Met { stand, answer }, raw);
        if let Some(model) = &self.own.model {
            self.tally.deepest = self.tally.deepest.max(model.depth());
            if (answer, model.stand()) == (0, Stand::Finished) {
                self.tally.finish(model.length());
            }
        }
        let head = Head {
            kind: kind_of(raw.entry),
            lent,
            answer,
            record: raw.entry.takes_a_record().then_some(&raw.record),
        };
        self.push(head, &build, &buffer);
        answer
    }

    pub fn room(&self) -> usize {
        self.own.buffer.len()
    }

    pub fn length(&self) -> usize {
        usize::from(self.own.build.length)
    }
}

fn head<'a>(kind: u8, lent: usize, answer: u8) -> Head<'a> {
    Head {
        kind,
        lent,
        answer,
        record: None,
    }
}

fn kind_of(entry: Entry) -> u8 {
    match entry {
        Entry::OpenBlock => 1,
        Entry::OpenIfElse => 2,
        Entry::OpenWhile => 3,
        Entry::Add => 4,
        Entry::Close => 5,
    }
}

// Bytes.
impl Recorder {
    /// Writes a step down by what it changed.
    fn push(&mut self, head: Head, build: &Build, buffer: &[u8]) {
        let now = &self.own.build;
        let entry = changed_entry(build, now);
        let (at, bytes) = changed_bytes(buffer, &self.own.buffer);
        let out = &mut self.out;
        out.push(head.kind);
        out.extend((head.lent as u32).to_le_bytes());
        out.push(head.answer);
        out.extend(now.length.to_le_bytes());
        out.extend(now.depth.to_le_bytes());
        out.extend([entry as u8, now.parts[entry]]);
        out.extend(now.fields[entry].to_le_bytes());
        out.extend(now.starts[entry].to_le_bytes());
        out.extend((at as u32).to_le_bytes());
        out.push(u8::try_from(bytes.len()).expect("a step changes few bytes"));
        if let Some(record) = head.record {
            push_record(out, record);
        }
        out.extend(bytes);
    }
}

fn changed_entry(before: &Build, now: &Build) -> usize {
    let entry = |build: &Build, i: usize| (build.parts[i], build.fields[i], build.starts[i]);
    let differs = |i: &usize| entry(before, *i) != entry(now, *i);
    let changed: Vec<usize> = (0..32).filter(differs).collect();
    assert!(changed.len() < 2, "a step changes one entry");
    changed.first().copied().unwrap_or(0)
}

/// The bytes from the first that changed to the last.
fn changed_bytes<'a>(before: &[u8], now: &'a [u8]) -> (usize, &'a [u8]) {
    if before == now {
        return (0, &[]);
    }
    let differs = |i: &usize| before[*i] != now[*i];
    let first = (0..now.len()).find(differs);
    let last = (0..now.len()).rfind(differs);
    match (first, last) {
        (Some(first), Some(last)) => (first, &now[first..=last]),
        _ => (0, &[]),
    }
}

fn push_record(out: &mut Vec<u8>, record: &Record) {
    out.push(record.kind);
    out.extend(record.body);
    out.extend(record.operands);
    out.extend(record.bases);
    out.extend(record.indexes);
    out.extend(record.scales.map(i16::to_le_bytes).concat());
    out.extend(record.numbers.map(u64::to_le_bytes).concat());
    out.extend(record.offsets.map(i64::to_le_bytes).concat());
}

/// The systematic set. Every answer has to be there at every kind of open part
/// where it can be had, and every call with every kind that it takes.
pub fn systematic() -> Result<Stored, String> {
    let mut recorder = Recorder::new();
    super::systematic::lists(&mut recorder);
    match recorder.tally.missing()[..] {
        [] => Ok((recorder.out, recorder.count)),
        ref missing => Err(format!("never met: {}", missing.join(", "))),
    }
}

/// Lists of the generator, with a buffer that a step can tell.
const SEED: u64 = 2026;
/// Longer lists are left out of the stored set.
const LONGEST_LIST: usize = 1_500;
const RANDOM_LISTS: usize = 120;

pub fn random() -> Stored {
    let mut all = Recorder::new();
    let mut index = 0;
    while all.count.lists < RANDOM_LISTS {
        let mut alone = Recorder::new();
        follow(&mut alone, index);
        if alone.out.len() <= LONGEST_LIST {
            follow(&mut all, index);
        }
        index += 1;
    }
    (all.out, all.count)
}

fn follow(recorder: &mut Recorder, index: u64) {
    let list = list(SEED, index);
    recorder.list(list.buffer.len());
    for step in &list.steps[1..] {
        match step {
            Step::Begin => recorder.begin(),
            Step::Call(call, lent) => {
                recorder.call(call, *lent);
            }
            Step::Damage(seed) => damaged(recorder, *seed),
        }
    }
}

/// One step for the bytes and each entry that damage changes.
fn damaged(recorder: &mut Recorder, seed: u64) {
    let mut goal = recorder.own.build.clone();
    let rng = &mut Rng::new(seed);
    recorder.damage(|build, buffer| {
        damage(&mut goal, buffer, rng);
        (build.length, build.depth) = (goal.length, goal.depth);
    });
    for i in 0..32 {
        let now = &recorder.own.build;
        let entry = (goal.parts[i], goal.fields[i], goal.starts[i]);
        if entry != (now.parts[i], now.fields[i], now.starts[i]) {
            recorder.damage(|build, _| {
                (build.parts[i], build.fields[i], build.starts[i]) = entry;
            });
        }
    }
}

#[cfg(test)]
#[path = "stored_tests.rs"]
mod tests;
