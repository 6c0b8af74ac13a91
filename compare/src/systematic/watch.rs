//! Kernels about the watch: everything that opens, closes or keeps flags, from all
//! that can be open before, with every reader behind it; readers that fail; first
//! and later marks, in rows, choices and loops; and effects of what was read.

use super::roles::{shapes, with, Role, BARE};
use super::stage::*;
use crate::build::*;
use crate::job::Job;
use crate::tree::Instruction::*;
use crate::tree::*;
use Relation::{Eq, Ne};

pub const READERS: [OfTwo; 3] = [AddCarry64, Adcx64, Adox64];

fn open() -> Code {
    ins(Sub64(reg(RIGHT), number(1)))
}

fn close() -> Code {
    ins(Xor64(reg(RIGHT), number(1)))
}

fn read(reader: OfTwo) -> Code {
    ins(reader(reg(OTHER), number(0)))
}

/// Codes from the start, in which nothing is open, to each that can be: nothing,
/// both, overflow alone, and the carry alone, which takes a mark.
pub fn opened() -> [Vec<Code>; 4] {
    let count = ins(Lzcnt64(reg(RIGHT), reg(SMALL)));
    [
        Vec::new(),
        vec![open()],
        vec![count],
        vec![open(), read(Adox64)],
    ]
}

fn start(code: Code) -> Job {
    stage(code).reg(LEFT, 2).reg(RIGHT, 5)
}

/// Behind each of `opened`.
fn behind_all(codes: &[Code]) -> Vec<Job> {
    let mut jobs = Vec::new();
    for before in opened() {
        jobs.push(start(block([&before, codes].concat())));
    }
    jobs
}

/// Every instruction, completed.
pub fn instructions() -> Vec<Instruction> {
    let (a, b) = (reg(TARGET), reg(SMALL));
    let mut all: Vec<Instruction> = TWOS.map(|of_two| of_two(a, b)).into();
    all.extend([AddLea64(a, b, b), Mul64(b), Mulx64(a, b, b)]);
    all.extend([Shr64(a, b), Shl64(at(CELL), b)]);
    all.extend([Paddd(1, 2), Pxor(1, 2), Pslld(1, 1), Psrld(1, 1)]);
    all.extend([Pshufd(1, 2, 27), Pcmpeqd(1, 2), Vpslldq(1, 2, 4)]);
    all.extend([Pextrq(a, 1, 1), Pinsrd(1, b, 1), Pinsrq(1, b, 1)]);
    all
}

/// Every comparison, true and false, in a choice and in a loop. Where it is true
/// the loop ends out of fuel.
fn comparisons() -> Vec<Code> {
    let mut codes = Vec::new();
    for relation in RELATIONS {
        for left in [number(8), reg(SMALL), at(CELL)] {
            let condition = compare(relation, left, number(9));
            codes.push(if_else(condition.clone(), nothing(), nothing()));
            codes.push(repeat(condition, nothing()));
        }
    }
    codes
}

/// Each of them from everything, with no reader behind it and with each.
fn all_between() -> Vec<Job> {
    let mut codes = vec![nothing()];
    codes.extend(instructions().into_iter().map(ins));
    codes.extend(comparisons());
    let mut jobs = Vec::new();
    for code in codes {
        jobs.extend(behind_all(std::slice::from_ref(&code)));
        for reader in READERS {
            jobs.extend(behind_all(&[code.clone(), read(reader)]));
        }
    }
    jobs
}

/// Every instruction that can fail, in every role, by memory without a cell or
/// out of the range, Rsp and constants; readers by every kind of such memory.
fn failing() -> Vec<Code> {
    let mut codes = Vec::new();
    for (turn, shape) in shapes().iter().enumerate() {
        let reads = (3..=5).contains(&turn);
        for (position, role) in shape.roles.iter().enumerate() {
            let next = (turn + position) % BARE.len();
            let mut bad = match reads {
                true => BARE.to_vec(),
                false => vec![BARE[next], BARE[(next + 4) % BARE.len()]],
            };
            if *role == Role::Destination {
                bad.extend([reg(RSP), number(5)]);
            }
            codes.extend(bad.into_iter().map(|o| with(shape, position, o)));
        }
    }
    let (a, far) = (reg(TARGET), number(64));
    let amounts = [Shr64(a, far), Shl64(a, far), Pslld(1, 32), Psrld(1, 32)];
    codes.extend(amounts.map(ins));
    codes.push(ins(Vpslldq(1, 2, 5)));
    for (left, right) in [(BARE[0], a), (a, BARE[1]), (BARE[4], BARE[0])] {
        let bad = compare(Eq, left, right);
        codes.push(if_else(bad.clone(), read(Adcx64), read(Adox64)));
        codes.push(repeat(bad, read(Adcx64)));
    }
    codes
}

/// Each of them from everything; what stands behind is never tried.
fn all_failing() -> Vec<Job> {
    let mut jobs = Vec::new();
    for (turn, code) in failing().into_iter().enumerate() {
        let behind = read(READERS[turn % 3]);
        jobs.extend(behind_all(&[code, open(), behind]));
    }
    jobs
}

/// The first mark, not the last: every reader behind every other, in a row, in
/// parts and in rounds, with and without a new opening between them.
fn two_readers() -> Vec<Job> {
    let mut jobs = Vec::new();
    for first in READERS {
        for second in READERS {
            let (a, b) = (|| read(first), || read(second));
            let left = compare(Ne, reg(LEFT), number(0));
            let less = ins(Sub64(reg(LEFT), number(1)));
            let codes = [
                block(vec![open(), a(), open(), b()]),
                block(vec![open(), a(), b()]),
                block(vec![open(), block(vec![a()]), nothing(), b()]),
                block(vec![close(), a(), open(), b()]),
                if_else(always(), block(vec![a(), open(), b()]), nothing()),
                if_else(never(), a(), b()),
                block(vec![if_else(always(), a(), nothing()), open(), b()]),
                block(vec![repeat(never(), nothing()), a(), open(), b()]),
                repeat(left.clone(), block(vec![a(), less.clone(), b()])),
                block(vec![repeat(left, block(vec![close(), a(), less])), b()]),
            ];
            jobs.extend(codes.map(start));
        }
    }
    jobs
}

/// Rounds: read in each, in the second alone, in none; out of fuel ahead of the
/// first and behind the first, in and behind a loop in a loop.
fn rounds() -> Vec<Job> {
    let left = || compare(Ne, reg(LEFT), number(0));
    let less = || ins(Sub64(reg(LEFT), number(1)));
    let again = || ins(Mov64(reg(LEFT), number(1)));
    let mut jobs = Vec::new();
    for reader in READERS {
        let last = || compare(Eq, reg(LEFT), number(1));
        let one = |code: Code| repeat(left(), block(vec![code, less()]));
        let inner = || repeat(left(), block(vec![less(), read(reader)]));
        let codes = [
            one(read(reader)),
            one(block(vec![close(), read(reader)])),
            one(if_else(last(), read(reader), nothing())),
            one(if_else(
                last(),
                nothing(),
                block(vec![close(), read(reader)]),
            )),
            block(vec![one(nothing()), read(reader)]),
            block(vec![one(nothing()), close(), read(reader)]),
            repeat(left(), block(vec![less(), close()])),
            repeat(always(), block(vec![close(), read(reader)])),
            repeat(always(), block(vec![open(), read(reader)])),
            block(vec![inner(), again(), inner()]),
            repeat(always(), block(vec![again(), inner(), close()])),
        ];
        for code in codes {
            jobs.extend([0, 1, 2, 4].map(|fuel| start(code.clone()).fuel(fuel)));
        }
    }
    jobs
}

/// Every end, with and without a mark, with everything that can then be open: a
/// fault, a loop without fuel, and one out of fuel behind its second round.
fn ends() -> Vec<Job> {
    let bad = ins(Shl64(reg(OTHER), number(64)));
    let mut jobs = Vec::new();
    for reader in READERS {
        for marking in [nothing(), block(vec![open(), read(reader)])] {
            for opening in opened() {
                let codes = [vec![marking.clone(), close()], opening].concat();
                let all = block(codes);
                let then = |code| block(vec![all.clone(), code]);
                jobs.push(start(all.clone()));
                jobs.push(start(then(bad.clone())));
                jobs.push(start(then(repeat(always(), nothing()))).fuel(0));
                jobs.push(start(repeat(always(), all.clone())).fuel(2));
            }
        }
    }
    jobs
}

/// A reader alone, which has the place 0 and cannot mark; the least place that
/// can, 8; right behind the test of a loop; and as deep as codes may be.
fn places() -> Vec<Job> {
    let deep = |code| (1..31).fold(code, |code, _| block(vec![code]));
    let mut jobs = Vec::new();
    for reader in READERS {
        let codes = [
            read(reader),
            block(vec![ins(Paddd(1, 2)), read(reader)]),
            repeat(always(), read(reader)),
            if_else(always(), read(reader), nothing()),
            block(vec![open(), deep(read(reader))]),
            deep(block(vec![open(), read(reader)])),
        ];
        for flags in [0, 2049, TOP] {
            jobs.extend(codes.clone().map(|code| start(code).flags(flags)));
        }
    }
    jobs
}

/// An open flag is added to a word, and codes go by that: to a cell, an xmm word,
/// a part, a round, a fault, a loop without end.
fn effects() -> Vec<Job> {
    let word = reg(TARGET);
    let one_more = || compare(Eq, word, number(1));
    let told = |n| ins(Mov64(reg(OTHER), number(n)));
    let mut jobs = Vec::new();
    for reader in READERS {
        let cases = [
            (20, nothing()),
            (20, ins(Mov64(at(CELL), word))),
            (20, ins(Pinsrq(1, word, 1))),
            (0, if_else(one_more(), told(1), told(2))),
            (0, repeat(one_more(), ins(Mov64(word, number(5))))),
            (0, repeat(one_more(), nothing())),
            (63, ins(Shl64(reg(OTHER), word))),
            (CELL, ins(Mov64(reg(OTHER), at_reg(TARGET, 0)))),
            (0, ins(Mov64(reg(OTHER), at_reg(TARGET, -1)))),
            (0, if_else(one_more(), ins(Pslld(1, 32)), nothing())),
        ];
        for (before, then) in cases {
            let added = ins(reader(word, number(0)));
            let set = ins(Mov64(word, number(before)));
            jobs.push(start(block(vec![open(), set, added, then, close()])));
        }
    }
    jobs
}

pub fn jobs() -> Vec<Job> {
    let rows = [all_between(), all_failing(), two_readers()];
    let others = [rounds(), ends(), places(), effects()];
    [rows.concat(), others.concat()].concat()
}

#[cfg(test)]
#[path = "watch_tests.rs"]
mod tests;
