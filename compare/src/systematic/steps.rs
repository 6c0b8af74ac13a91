//! How many steps a run makes, for every kind of end: rows of instructions,
//! choices, rounds and loops in loops, each short enough to reckon by hand.

use super::stage::*;
use crate::build::*;
use crate::job::Job;
use crate::tree::Instruction::*;
use crate::tree::*;
use Relation::{Eq, Ne};

/// Two rounds for LEFT, one for RIGHT.
fn start(code: Code) -> Job {
    bare(code).reg(LEFT, 2).reg(RIGHT, 1).reg(OTHER, 1011)
}

/// No loops: Blocks count nothing, nor does an instruction that faults, even
/// where it has written something before its last check.
fn rows() -> Vec<Job> {
    let late = || ins(Mulx64(at(BESIDE), reg(TARGET), number(1)));
    let inner = block(vec![step(), nothing()]);
    let deeper = block(vec![step(), step(), bad()]);
    let codes = [
        nothing(),
        block(vec![nothing(), block(vec![nothing()])]),
        step(),
        block(vec![step(), step(), step()]),
        block(vec![nothing(), step(), nothing(), inner, step()]),
        bad(),
        block(vec![bad(), step()]),
        block(vec![nothing(), bad()]),
        block(vec![step(), bad(), step()]),
        block(vec![step(), deeper, step()]),
        late(),
        block(vec![step(), late(), step()]),
    ];
    codes.map(start).into()
}

/// 31 to 36, each behind two steps.
fn faults() -> Vec<Job> {
    let all = [
        Mov64(reg(OTHER), at(BESIDE)),
        Mov64(reg(RSP), reg(OTHER)),
        Shr64(reg(OTHER), number(64)),
        Psrld(1, 32),
        Vpslldq(1, 2, 5),
        Mov64(at_reg(LEFT, -3), reg(OTHER)),
    ];
    let behind = |bad| start(block(vec![step(), step(), ins(bad)]));
    all.map(behind).into()
}

/// One step for each instruction, and for each comparison.
fn kinds() -> Vec<Job> {
    let (a, b) = (reg(TARGET), reg(OTHER));
    let mut all: Vec<Instruction> = TWOS.map(|of_two| of_two(a, b)).into();
    all.extend([AddLea64(a, b, b), Mul64(a), Mulx64(a, b, b)]);
    all.extend([Shr64(a, number(1)), Shl64(a, number(1))]);
    all.extend([Paddd(1, 2), Pxor(1, 2), Pslld(1, 1), Psrld(1, 1)]);
    all.extend([Pshufd(1, 2, 27), Pcmpeqd(1, 2), Vpslldq(1, 2, 4)]);
    all.extend([Pextrq(a, 1, 1), Pinsrd(1, a, 1), Pinsrq(1, a, 1)]);
    let own = |relation| compare(relation, reg(LEFT), reg(RIGHT));
    let chosen = RELATIONS.map(|relation| if_else(own(relation), step(), nothing()));
    let codes: Vec<Code> = all.into_iter().map(ins).collect();
    vec![start(block(codes)), start(block(chosen.into()))]
}

/// Either part; then comparisons that fail.
fn choices() -> Vec<Job> {
    let mut codes = Vec::new();
    for own in [always, never] {
        let three = block(vec![step(), step(), step()]);
        let again = if_else(own(), nothing(), step());
        codes.extend([
            if_else(own(), step(), three),
            if_else(own(), nothing(), nothing()),
            if_else(own(), again.clone(), again),
            block(vec![step(), if_else(own(), step(), bad())]),
            block(vec![if_else(own(), bad(), step()), step()]),
        ]);
    }
    let wrong = |left, right| if_else(compare(Eq, left, right), step(), step());
    codes.extend([
        wrong(at(BESIDE), reg(LEFT)),
        block(vec![step(), wrong(reg(LEFT), at(BESIDE)), step()]),
        if_else(always(), wrong(at(BESIDE), at(BESIDE)), step()),
    ]);
    codes.into_iter().map(start).collect()
}

/// The test that ends a loop counts; more fuel than is needed adds none.
fn rounds() -> Vec<Job> {
    let mut jobs = Vec::new();
    for (count, fuels) in [(0, 0..=1), (1, 0..=2), (3, 2..=4)] {
        let one = |fuel| start(down(LEFT, Vec::new())).reg(LEFT, count).fuel(fuel);
        jobs.extend(fuels.map(one));
    }
    let many = start(down(LEFT, Vec::new())).fuel(u32::MAX);
    jobs.extend([many.clone(), many.reg(LEFT, 300)]);
    let idle = || repeat(never(), step());
    let codes = [
        (repeat(always(), nothing()), 1),
        (repeat(always(), nothing()), 5),
        (repeat(always(), block(vec![nothing(), step()])), 3),
        (block(vec![step(), idle(), step()]), 0),
        (block(vec![step(), idle(), step()]), 1),
        (block(vec![down(LEFT, vec![]), down(RIGHT, vec![])]), 3),
        (block(vec![down(LEFT, vec![]), down(RIGHT, vec![])]), 2),
        (block(vec![down(RIGHT, vec![]), down(LEFT, vec![])]), 2),
    ];
    jobs.extend(codes.map(|(code, fuel)| start(code).fuel(fuel)));
    jobs
}

/// A comparison or a body that fails, in the first round and in the second.
fn failing_rounds() -> Vec<Job> {
    let wrong = repeat(compare(Eq, at(BESIDE), reg(LEFT)), step());
    let once = compare(Ne, reg(LEFT), at_reg(NEAR, 0));
    let moved = repeat(once, set(NEAR, BESIDE));
    let second = if_else(differs(LEFT, 1), step(), bad());
    let twice = down(LEFT, vec![second]);
    let codes = [
        (wrong.clone(), 0),
        (wrong.clone(), 1),
        (block(vec![step(), wrong]), 1),
        (moved.clone(), 1),
        (moved, 2),
        (repeat(always(), bad()), 1),
        (twice.clone(), 1),
        (twice, 2),
    ];
    let job = |(code, fuel)| start(code).fuel(fuel).reg(NEAR, CELL).cell(CELL, 64, 7);
    codes.map(job).into()
}

/// Loops in loops, ended or out of fuel at each depth.
fn nests() -> Vec<Job> {
    let two = || down(LEFT, vec![set(RIGHT, 1), down(RIGHT, vec![])]);
    let mut jobs: Vec<Job> = (0..=5).map(|fuel| start(two()).fuel(fuel)).collect();
    let inner = if_else(differs(RIGHT, 0), down(RIGHT, vec![]), step());
    jobs.push(start(repeat(always(), inner)).fuel(3));
    let endless = || (0..3).fold(step(), |code, _| repeat(always(), code));
    jobs.extend((0..=4).map(|fuel| start(endless()).fuel(fuel)));
    let inmost = vec![set(TARGET, 1), down(TARGET, vec![])];
    let three = down(LEFT, vec![set(RIGHT, 1), down(RIGHT, inmost)]);
    let three = start(three).reg(LEFT, 1);
    jobs.extend([3, 4].map(|fuel| three.clone().fuel(fuel)));
    jobs
}

/// Cells and xmm words that differ from step to step.
fn written() -> Vec<Job> {
    let cell = at(CELL);
    let row = [
        Mov64(cell, number(5)),
        Add64(at(4104), number(1)),
        Mov64(at(BESIDE), number(1)),
    ];
    let words = [Paddd(1, 1), Pinsrd(1, reg(OTHER), 2), Pslld(1, 32)];
    let left = compare(Ne, cell, number(0));
    let codes = [
        block(row.map(ins).into()),
        block(words.map(ins).into()),
        repeat(left, ins(Sub64(cell, number(1)))),
    ];
    let job = |code| start(code).fuel(3).xmm(1, [1, 2, 3, 4]);
    let job = |code| job(code).cell(CELL, 64, 2).cell(4104, 64, 9);
    codes.map(job).into()
}

/// As deep as codes may be, by each structure.
fn depths() -> Vec<Job> {
    let deep = |wrap: fn(Code) -> Code| (1..32).fold(step(), |code, _| wrap(code));
    let codes = [
        deep(|code| block(vec![code])),
        deep(|code| if_else(always(), code, nothing())),
        deep(|code| repeat(always(), code)),
    ];
    codes.map(|code| start(code).fuel(31)).into()
}

pub fn jobs() -> Vec<Job> {
    let groups = [rows(), faults(), kinds(), choices()];
    let loops = [rounds(), failing_rounds(), nests()];
    let others = [written(), depths()];
    [groups.concat(), loops.concat(), others.concat()].concat()
}

#[cfg(test)]
#[path = "steps_tests.rs"]
mod tests;
