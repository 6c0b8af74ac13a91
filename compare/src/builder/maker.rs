//! One list of calls in the making. A model goes along, so that a call meant
//! to be refused can be told from one that would be taken.

use super::calls::Call;
use super::forged::Build;
use super::model::{added, Model, Stand};
use super::record::RawCall;
use super::values::Values;
use crate::rng::Rng;

pub enum Step {
    Begin,
    /// A call, and how many of the buffer's bytes are lent for it.
    Call(RawCall, usize),
    /// Build or buffer are changed between calls, by chance from this seed.
    Damage(u64),
}

pub struct List {
    /// What stands where the build will be, before it is begun.
    pub build: Build,
    pub buffer: Vec<u8>,
    pub steps: Vec<Step>,
}

/// Bytes behind what is ever lent, to see that they are let alone.
const GUARD: usize = 24;

pub struct Maker {
    pub rng: Rng,
    pub model: Model,
    pub room: usize,
    pub steps: Vec<Step>,
}

impl Maker {
    pub fn new(rng: Rng, room: usize) -> Maker {
        Maker {
            rng,
            model: Model::default(),
            room,
            steps: vec![Step::Begin],
        }
    }

    pub fn list(mut self) -> List {
        let rng = &mut self.rng;
        let filler = rng.pick(&[None, None, None, Some(0), Some(0xff)]);
        let buffer = (0..self.room + GUARD).map(|_| filler.unwrap_or(rng.word() as u8));
        let buffer = buffer.collect();
        let build = Build {
            length: rng.word() as u16,
            depth: rng.word() as u16,
            parts: std::array::from_fn(|_| rng.word() as u8),
            fields: std::array::from_fn(|_| rng.word() as u16),
            starts: std::array::from_fn(|_| rng.word() as u16),
        };
        let steps = self.steps;
        List {
            build,
            buffer,
            steps,
        }
    }

    pub fn begin(&mut self) {
        self.model = Model::default();
        self.steps.push(Step::Begin);
    }

    pub fn is_finished(&self) -> bool {
        self.model.stand() == Stand::Finished
    }

    fn answer(&self, raw: &RawCall, lent: usize) -> u8 {
        let value = raw.value();
        value.map_or(2, |call| self.model.answer(&call, lent))
    }

    fn push(&mut self, raw: RawCall, lent: usize) {
        let taken = self.answer(&raw, lent) == 0;
        if let (true, Some(call)) = (taken, raw.value()) {
            self.model.take(call);
        }
        self.steps.push(Step::Call(raw, lent));
    }
}

// Single calls.
impl Maker {
    pub fn call(&mut self, call: &Call, lent: usize) {
        let raw = RawCall::of(call, &mut self.rng);
        self.push(raw, lent);
    }

    /// Now and then no byte more than the call needs is lent.
    fn walk_one(&mut self, call: &Call) {
        let need = self.model.length() + added(call);
        let spare = self.rng.percent(70) || need > self.room;
        self.call(call, if spare { self.room } else { need });
    }

    /// A call of any kind; `bad` of a hundred numbers are above 15, or no scale.
    pub fn chance_call(&mut self, bad: usize) {
        let (raw, lent) = self.chance(bad);
        self.push(raw, lent);
    }

    fn chance(&mut self, bad: usize) -> (RawCall, usize) {
        let raw = if self.rng.percent(4) {
            RawCall::any(&mut self.rng)
        } else {
            let call = Values::new(&mut self.rng, bad).call();
            RawCall::of(&call, &mut self.rng)
        };
        let lent = self.chance_lent(&raw);
        (raw, lent)
    }

    /// Mostly all there is, else about what the call needs, or less than the
    /// build has.
    fn chance_lent(&mut self, raw: &RawCall) -> usize {
        let length = self.model.length();
        let need = length + raw.value().map_or(0, |call| added(&call));
        let short = |n: usize| n.saturating_sub(1);
        let anything = self.rng.below(self.room + 1);
        let around = [need, short(need), need + 1, length, short(length), 0];
        let lent = match self.rng.below(10) {
            0..=5 => self.room,
            6 => anything,
            _ => self.rng.pick(&around),
        };
        lent.min(self.room)
    }

    /// A record of any content.
    pub fn any_record(&mut self) {
        let raw = RawCall::any(&mut self.rng);
        let lent = self.chance_lent(&raw);
        self.push(raw, lent);
    }

    /// A call that the model does not follow, after damage. The lengths lent
    /// are those that damage likes too, so that they meet.
    pub fn blind_call(&mut self) {
        let (raw, _) = self.chance(3);
        let lent = match self.rng.below(4) {
            0 => self.rng.below(self.room + 1),
            1 => self.rng.below(self.room.min(80) + 1),
            _ => self.room,
        };
        self.steps.push(Step::Call(raw, lent));
    }

    /// Throws in a call that is refused here, if chance soon finds one.
    pub fn noise(&mut self) {
        for _ in 0..5 {
            let (raw, lent) = self.chance(15);
            if self.answer(&raw, lent) != 0 {
                self.steps.push(Step::Call(raw, lent));
                return;
            }
        }
    }
}

// Rows of calls.
impl Maker {
    /// The calls in their order, with refused ones ahead of so many of a
    /// hundred.
    pub fn walk(&mut self, calls: &[Call], noise: usize) {
        for call in calls {
            while self.rng.percent(noise) {
                self.noise();
            }
            self.walk_one(call);
        }
    }

    /// Opens structures inside each other, so many if they fit. An IfElse is
    /// followed into its true part, or past an instruction into its false one.
    pub fn climb(&mut self, levels: usize, into_true_parts: bool) {
        for _ in 0..levels {
            let opening = Values::new(&mut self.rng, 0).opening();
            self.walk_one(&opening);
            let has_two = matches!(opening, Call::OpenIfElse(_));
            if has_two && !(into_true_parts && self.rng.percent(50)) {
                let only = Values::new(&mut self.rng, 0).instruction();
                self.walk_one(&Call::Add(only));
                self.walk_one(&Call::Close);
            }
        }
    }

    /// Closes what can be closed, with an instruction where a code is missing.
    pub fn finish(&mut self, noise: usize) {
        while !self.is_finished() {
            while self.rng.percent(noise) {
                self.noise();
            }
            let missing = Values::new(&mut self.rng, 0).instruction();
            let next = [Call::Close, Call::Add(missing)];
            let fitting = |call: &&Call| self.model.answer(call, self.room) == 0;
            let Some(call) = next.iter().find(fitting) else {
                return;
            };
            self.walk_one(call);
        }
    }
}
