//! Depth 32 and 33 through each kind of part, buffers that are a byte too
//! short and just long enough, and 16,384 bytes.

use super::{bad, equal, sound, xor, Scribe};
use crate::build::at_index;
use crate::builder::calls::Call;
use crate::builder::model::added;
use crate::reader::LONGEST;
use crate::tree::Instruction::*;
use crate::tree::Operand;
use Call::{Add, Close, OpenBlock, OpenIfElse, OpenWhile};

pub fn lists(scribe: &mut Scribe) {
    let if_else = || OpenIfElse(equal(0, 1));
    let repeat = || OpenWhile(equal(0, 1));
    deep(scribe, &[OpenBlock], &[OpenBlock, if_else()]);
    deep(scribe, &[repeat()], &[repeat()]);
    deep(scribe, &[if_else()], &[if_else()]);
    deep(scribe, &[if_else(), xor(), Close], &[repeat()]);
    climb_down(scribe);
    tight(scribe);
    shorter(scribe);
    long(scribe);
}

/// A part inside a part, 31 times; then structures at depth 32, which are
/// taken and take nothing. A Block can be closed there, the others cannot.
fn deep(scribe: &mut Scribe, way: &[Call], openings: &[Call]) {
    scribe.list(1_000);
    for _ in 0..31 {
        scribe.take(way);
    }
    for opening in openings {
        assert_eq!(scribe.call(opening), 0);
        for call in &sound()[..4] {
            assert_eq!(scribe.call(call), 53);
            assert_eq!(scribe.lend(call, 0), 53);
        }
        for (call, number) in bad() {
            assert_eq!(scribe.lend(&call, 0), number);
        }
        let closed = scribe.call(&Close);
        assert_eq!(closed, if *opening == OpenBlock { 0 } else { 51 });
    }
}

/// Closes what a Block at depth 32 stands in.
fn climb_down(scribe: &mut Scribe) {
    scribe.list(1_000);
    for _ in 0..31 {
        scribe.take(&[OpenWhile(equal(0, 1))]);
    }
    scribe.take(&[OpenBlock, Close]);
    for _ in 0..31 {
        scribe.take(&[Close]);
    }
    assert_eq!(scribe.call(&Close), 51);
}

/// One byte longer than `xor`.
fn shuffle() -> Call {
    Add(Pshufd(1, 2, 3))
}

/// Calls of every length that there is, as the first code and in a Block.
fn tight(scribe: &mut Scribe) {
    let index = |n: u8| at_index(n, 1, n, 1);
    let operand = Operand::Const(1);
    let calls = [
        OpenBlock,
        OpenIfElse(equal(0, 1)),
        OpenWhile(equal(0, 1)),
        xor(),
        shuffle(),
        Add(Mul64(operand)),
        Add(Pinsrq(1, operand, 3)),
        Add(Mov64(Operand::Reg(1), operand)),
        Add(Mulx64(index(1), index(2), index(3))),
    ];
    for (before, call) in [0, 1]
        .iter()
        .flat_map(|n| calls.iter().map(move |c| (*n, c)))
    {
        scribe.list(60);
        scribe.take(&[OpenBlock][..before]);
        let need = scribe.recorder.length() + added(call);
        assert_eq!(scribe.lend(call, need - 1), 52);
        assert_eq!(scribe.lend(call, need), 0);
    }
}

/// Closes with less lent than the build has, and with just as much.
fn shorter(scribe: &mut Scribe) {
    let ways: [&[Call]; 4] = [
        &[OpenBlock],
        &[OpenWhile(equal(0, 1)), xor()],
        &[OpenIfElse(equal(0, 1)), xor()],
        &[OpenIfElse(equal(0, 1)), xor(), Close, xor()],
    ];
    for way in ways {
        scribe.list(60);
        scribe.take(way);
        let length = scribe.recorder.length();
        for lent in [0, 1, length - 1] {
            assert_eq!(scribe.lend(&Close, lent), 52);
        }
        assert_eq!(scribe.lend(&Close, length), 0);
    }
}

/// Up to 16,384 bytes in a Block; one more is refused, whatever is lent.
fn long(scribe: &mut Scribe) {
    let index = |n: u8| at_index(n, 8, 15 - n, -1);
    let longest = Add(AddLea64(index(1), index(2), index(3)));
    scribe.list(65_550);
    scribe.take(&[OpenBlock]);
    while scribe.recorder.length() + added(&longest) + 3 <= LONGEST {
        scribe.take(std::slice::from_ref(&longest));
    }
    while scribe.recorder.length() + 3 < LONGEST {
        let next = match (LONGEST - scribe.recorder.length()) % 3 {
            0 => xor(),
            _ => shuffle(),
        };
        scribe.take(&[next]);
    }
    for lent in [LONGEST + 1, 65_536, 65_550] {
        assert_eq!(scribe.lend(&shuffle(), lent), 52);
    }
    assert_eq!(scribe.lend(&xor(), LONGEST - 1), 52);
    assert_eq!(scribe.lend(&xor(), LONGEST), 0);
    for call in &sound()[..4] {
        assert_eq!(scribe.call(call), 52);
    }
    assert_eq!(scribe.lend(&Close, LONGEST - 1), 52);
    assert_eq!(scribe.lend(&Close, LONGEST), 0);
    assert_eq!(scribe.call(&Close), 51);
}
