//! Kernels about the fuel that loops need: one loop, loops in a row and in each other,
//! in parts and behind faults, and what they leave round by round. The least fuel is
//! that of the loop test which is met deepest: behind k tests that it is inside of or
//! comes after in its own loop, a test needs k + 1.

use super::stage::*;
use crate::build::*;
use crate::job::Job;
use crate::tree::Instruction::*;
use crate::tree::*;
use Relation::{Eq, Ne};

/// Three rounds for LEFT, one for RIGHT, none for TARGET.
fn start(code: Code) -> Job {
    bare(code).reg(LEFT, 3).reg(RIGHT, 1).reg(OTHER, 1011)
}

fn row(codes: Vec<Code>) -> Job {
    start(block(codes))
}

fn is(counter: Reg, n: u64) -> Ocmp {
    compare(Eq, reg(counter), number(n))
}

fn idle() -> Code {
    repeat(never(), nothing())
}

fn endless() -> Code {
    repeat(always(), nothing())
}

/// As many rounds as a register says, and none where that is 0.
fn rounds_of(counter: Reg, from: Reg) -> Vec<Code> {
    vec![
        ins(Mov64(reg(counter), reg(from))),
        down(counter, Vec::new()),
    ]
}

/// One loop, with nothing in its body or something, with and without codes around it.
fn alone() -> Vec<Job> {
    let counted = |rounds| start(down(LEFT, Vec::new())).reg(LEFT, rounds);
    let mut jobs: Vec<Job> = [0, 1, 2, 3].map(counted).into();
    jobs.extend([
        start(idle()),
        start(repeat(never(), step())),
        start(repeat(differs(OTHER, 0), set(OTHER, 0))),
        start(down(LEFT, vec![step(), nothing()])),
        row(vec![step(), down(RIGHT, Vec::new()), step()]),
    ]);
    jobs
}

/// Loops that only the step limit ends.
fn without_end() -> Vec<Job> {
    let inner = repeat(always(), endless());
    vec![
        start(endless()),
        start(repeat(always(), step())),
        start(inner),
        row(vec![step(), down(RIGHT, Vec::new()), endless()]),
        start(repeat(always(), down(RIGHT, Vec::new()))),
    ]
}

/// Loops in a row: the deeper one first, last, between, and two alike.
fn in_a_row() -> Vec<Job> {
    let one = |counter| down(counter, Vec::new());
    vec![
        row(vec![one(LEFT), one(RIGHT)]),
        row(vec![one(RIGHT), one(LEFT)]),
        row(vec![one(RIGHT), one(LEFT), idle()]),
        row(vec![one(RIGHT), set(RIGHT, 1), one(RIGHT)]),
        row(vec![block(vec![one(LEFT)]), step(), block(vec![idle()])]),
    ]
}

/// Loops in each other: the deepest test in the first round, in the last, in the
/// middle one, in the outer loop's own last test, and three deep.
fn in_each_other() -> Vec<Job> {
    let first = [rounds_of(RIGHT, TARGET), vec![set(TARGET, 0)]].concat();
    let more = ins(Add64(reg(TARGET), number(1)));
    let growing = [rounds_of(RIGHT, TARGET), vec![more]].concat();
    let one = |counter| vec![set(counter, 1), down(counter, Vec::new())];
    let in_middle = block(vec![set(RIGHT, 3), down(RIGHT, Vec::new())]);
    let three = vec![set(RIGHT, 1), down(RIGHT, one(TARGET))];
    vec![
        start(down(LEFT, first)).reg(LEFT, 2).reg(TARGET, 3),
        start(down(LEFT, one(RIGHT))),
        start(down(LEFT, growing)).reg(LEFT, 2),
        start(down(LEFT, vec![if_else(is(LEFT, 2), in_middle, nothing())])),
        start(down(LEFT, vec![if_else(is(LEFT, 3), idle(), nothing())])),
        start(down(LEFT, three)).reg(LEFT, 1),
    ]
}

/// In either part of a choice, also where the other part has a deeper loop.
fn in_parts() -> Vec<Job> {
    let one = |counter| down(counter, Vec::new());
    let last = |part| down(LEFT, vec![if_else(is(LEFT, 1), part, step())]);
    vec![
        start(if_else(always(), one(LEFT), step())),
        start(if_else(never(), step(), one(LEFT))),
        start(if_else(always(), one(RIGHT), one(LEFT))),
        start(if_else(never(), one(RIGHT), one(LEFT))),
        start(last(one(RIGHT))),
        start(last(if_else(never(), step(), one(RIGHT)))),
    ]
}

/// Code without a loop, and loops that no run gets to.
fn not_reached() -> Vec<Job> {
    let one = |counter| down(counter, Vec::new());
    let wrong = if_else(compare(Eq, at(BESIDE), reg(LEFT)), step(), step());
    vec![
        start(nothing()),
        row(vec![step(), step()]),
        row(vec![step(), bad()]),
        start(if_else(always(), step(), one(LEFT))),
        row(vec![bad(), one(LEFT)]),
        row(vec![step(), wrong, endless()]),
        start(repeat(never(), one(LEFT))),
        row(vec![one(RIGHT), bad(), one(LEFT)]),
    ]
}

/// A fault in a body, behind a loop, and in a loop's comparison, which comes right
/// behind the test: in the first round and in a later one, of an inner loop too.
fn failing() -> Vec<Job> {
    let wrong = |left, right| repeat(compare(Ne, left, right), step());
    let nowhere = || wrong(at(BESIDE), reg(LEFT));
    let moved = repeat(compare(Ne, reg(LEFT), at_reg(NEAR, 0)), set(NEAR, BESIDE));
    let inner = |part| down(LEFT, vec![if_else(is(LEFT, 2), part, step())]);
    let codes = vec![
        repeat(always(), bad()),
        inner(bad()),
        block(vec![down(LEFT, Vec::new()), bad()]),
        nowhere(),
        wrong(reg(LEFT), at(BESIDE)),
        wrong(at_reg(LEFT, -9), reg(LEFT)),
        moved,
        inner(nowhere()),
        block(vec![down(RIGHT, Vec::new()), nowhere(), endless()]),
    ];
    let job = |code| start(code).reg(NEAR, CELL).cell(CELL, 64, 7);
    codes.into_iter().map(job).collect()
}

/// Cells, xmm words and flags that each round changes, marked and unmarked: what
/// stands at the end tells how many rounds there were.
fn written() -> Vec<Job> {
    let cell = at(CELL);
    let left = || compare(Ne, cell, number(0));
    let less = Sub64(cell, number(1));
    let marked = [less, Paddd(1, 2), Adcx64(reg(OTHER), number(0))];
    let quiet = [less, Pinsrd(1, reg(OTHER), 2), Xor64(reg(OTHER), reg(LEFT))];
    let kept = [Paddd(1, 2), less, Lzcnt64(at(4104), cell)];
    let codes = [marked, quiet, kept].map(|all| repeat(left(), block(all.map(ins).into())));
    let job = |code| start(code).xmm(1, [1, 2, 3, 4]).xmm(2, [9, 8, 7, 6]);
    let job = |code| job(code).cell(CELL, 64, 2).cell(4104, 64, 9);
    codes.map(job).into()
}

/// The overflow of a sum, which is not the same by the evaluations, is added to the
/// counter of a loop, or keeps one from ending.
fn by_overflow() -> Vec<Job> {
    let sum = |then| {
        let add = Adox64(reg(TARGET), number(0));
        row(vec![step(), ins(add), then])
    };
    let counted = || sum(down(TARGET, Vec::new())).reg(TARGET, 2);
    let far = u64::MAX / 2;
    vec![
        counted().flags(0).reg(OTHER, far),
        counted().flags(2048),
        sum(repeat(is(TARGET, 1), nothing()))
            .flags(0)
            .reg(OTHER, far),
    ]
}

/// As deep as loops may be, each with one round, and a loop with many.
fn far() -> Vec<Job> {
    let deep = (1..32).fold(set(LEFT, 0), |code, _| repeat(differs(LEFT, 0), code));
    let many = start(down(LEFT, Vec::new())).reg(LEFT, 300);
    vec![start(deep), many]
}

pub fn jobs() -> Vec<Job> {
    let rows = [alone(), without_end(), in_a_row(), in_each_other()];
    let others = [in_parts(), not_reached(), failing()];
    let ends = [written(), by_overflow(), far()];
    [rows.concat(), others.concat(), ends.concat()].concat()
}

#[cfg(test)]
#[path = "loops_tests.rs"]
mod tests;
