//! A systematic set of call lists, written out one by one: every value in
//! every place, every scale there too, every refusal at every kind of open part, and
//! damaged builds.
//! Only what a record's kind does not look at is left to chance, from a fixed
//! seed.

mod damaged;
mod limits;
mod scales;
mod stands;
mod values;

use super::calls::Call;
use super::record::{Entry, RawCall};
use super::stored::Recorder;
use crate::build::{at_index, reg};
use crate::rng::Rng;
use crate::tree::Instruction::{Mul64, Pinsrd, Pxor};
use crate::tree::{Ocmp, Operand, Reg, Relation};

pub fn lists(recorder: &mut Recorder) {
    let mut rng = Rng::new(1);
    let mut scribe = Scribe {
        recorder,
        rng: &mut rng,
    };
    values::lists(&mut scribe);
    stands::lists(&mut scribe);
    limits::lists(&mut scribe);
    damaged::lists(&mut scribe);
    scales::lists(&mut scribe);
}

/// Records calls; what a record does not need comes from `rng`.
struct Scribe<'a> {
    recorder: &'a mut Recorder,
    rng: &'a mut Rng,
}

impl Scribe<'_> {
    fn list(&mut self, room: usize) {
        self.recorder.list(room);
    }

    fn raw(&mut self, call: &Call) -> RawCall {
        RawCall::of(call, self.rng)
    }

    /// With the whole buffer lent.
    fn call(&mut self, call: &Call) -> u8 {
        self.lend(call, self.recorder.room())
    }

    fn lend(&mut self, call: &Call, lent: usize) -> u8 {
        let raw = self.raw(call);
        self.recorder.call(&raw, lent)
    }

    /// A record that is no value.
    fn no_value(&mut self) {
        let raw = RawCall::with(Entry::Add, &[0x1c], &[], self.rng);
        assert_eq!(self.recorder.call(&raw, self.recorder.room()), 2);
    }

    /// Calls that are all taken.
    fn take(&mut self, calls: &[Call]) {
        for call in calls {
            assert_eq!(self.call(call), 0, "{call:?}");
        }
    }
}

fn equal(a: Reg, b: Reg) -> Ocmp {
    Ocmp::unplaced(Relation::Eq, reg(a), reg(b))
}

fn xor() -> Call {
    Call::Add(Pxor(0, 1))
}

/// Every kind of call, with values that name what there is.
fn sound() -> [Call; 5] {
    [
        Call::OpenBlock,
        Call::OpenIfElse(equal(0, 15)),
        Call::OpenWhile(equal(15, 0)),
        xor(),
        Call::Close,
    ]
}

fn scaled(base: Reg, scale: i16, index: Reg) -> Operand {
    at_index(base, scale, index, 0)
}

/// Calls with a bad field, and the number that they are refused with where they fit:
/// a register that there is not, a scale that there is not, and both.
fn bad() -> [(Call, u8); 9] {
    let less = |operand| Ocmp::unplaced(Relation::Lt, reg(0), operand);
    [
        (Call::OpenIfElse(equal(16, 0)), 4),
        (Call::OpenWhile(equal(0, 255)), 4),
        (Call::Add(Pxor(0, 16)), 4),
        (Call::OpenIfElse(less(scaled(0, 3, 1))), 7),
        (Call::OpenWhile(less(scaled(0, 0, 1))), 7),
        (Call::Add(Mul64(scaled(0, -1, 1))), 7),
        (Call::OpenWhile(less(scaled(16, 3, 1))), 4),
        (Call::OpenIfElse(less(scaled(0, 16, 16))), 7),
        (Call::Add(Pinsrd(16, scaled(0, 3, 1), 1)), 4),
    ]
}
