//! What systematic jobs share: registers and cells with a part to play, the
//! jobs that hold them, and what loops are put together from.

use crate::build::{block, ins, number, of_code, reg, repeat};
use crate::job::Job;
use crate::tree::Instruction::{Add64, Mov64, Shl64, Sub64};
use crate::tree::*;

pub const TOP: u64 = u64::MAX;

/// Registers with a part to play on the stage.
pub const SMALL: Reg = 4;
pub const NEAR: Reg = 6;
pub const BASE: Reg = 8;
pub const INDEX: Reg = 9;
pub const TARGET: Reg = 10;
pub const OTHER: Reg = 11;
pub const LEFT: Reg = 12;
pub const RIGHT: Reg = 13;

/// Two 64-bit cells side by side, the second one at 4104.
pub const CELL: u64 = 4096;
/// One address behind the start of a 64-bit cell: nothing is listed there.
pub const BESIDE: u64 = 4097;

/// Flags and fill that differ in every bit that is set, and nothing else.
pub fn bare(code: Code) -> Job {
    of_code(code).flags(1 << 63 | 2048 | 5).fill(1 << 62 | 10)
}

/// What the operands need: registers, xmm words, and cells of every tag. What
/// stands near another differs from it, so that a change in the wrong place
/// shows.
pub fn stage(code: Code) -> Job {
    bare(code)
        .reg(RAX, 1 << 62)
        .reg(RDX, 1003)
        .reg(SMALL, 9)
        .reg(NEAR, 4000)
        .reg(RSP, CELL)
        .reg(BASE, 8192)
        .reg(INDEX, 2048)
        .reg(TARGET, TOP - 2)
        .reg(OTHER, 1011)
        .xmm(1, [1, 2, 3, 4])
        .fuel(3)
        .cell(CELL, 64, 7)
        .cell(4104, 64, 1 << 63 | 5)
        .cell(4112, 8, 200)
        .cell(4113, 16, 60_000)
        .cell(4115, 32, 4_000_000_000)
}

pub fn compare(relation: Relation, left: Operand, right: Operand) -> Ocmp {
    Ocmp::unplaced(relation, left, right)
}

pub fn nothing() -> Code {
    block(Vec::new())
}

pub fn always() -> Ocmp {
    compare(Relation::Eq, reg(LEFT), reg(LEFT))
}

pub fn never() -> Ocmp {
    compare(Relation::Ne, reg(LEFT), reg(LEFT))
}

/// One step.
pub fn step() -> Code {
    ins(Add64(reg(OTHER), number(1)))
}

/// Fault 33.
pub fn bad() -> Code {
    ins(Shl64(reg(OTHER), number(64)))
}

pub fn less(counter: Reg) -> Code {
    ins(Sub64(reg(counter), number(1)))
}

pub fn set(counter: Reg, n: u64) -> Code {
    ins(Mov64(reg(counter), number(n)))
}

pub fn differs(counter: Reg, n: u64) -> Ocmp {
    compare(Relation::Ne, reg(counter), number(n))
}

/// A loop that takes the counter down to 0: two steps in a round beside those
/// of the codes, and one more to end it.
pub fn down(counter: Reg, mut codes: Vec<Code>) -> Code {
    codes.push(less(counter));
    repeat(differs(counter, 0), block(codes))
}
