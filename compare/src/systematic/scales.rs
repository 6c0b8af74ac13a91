//! Scales: those that there are and others in every role, and bad scales beside bad
//! registers, in one operand and in two. `scale_orders.rs` has them beside all else
//! that code can be refused for.

use super::comparisons::{chosen, once};
use super::roles::{shapes, with, Shape};
use super::scale_orders;
use super::stage::*;
use crate::build::*;
use crate::job::Job;
use crate::tree::Instruction::*;
use crate::tree::*;

/// In every role.
const TRIED: [i16; 13] = [0, 3, -1, 7, 9, 16, 256, 32_767, -32_768, 1, 2, 4, 8];

/// In one role: near the four, and like one of them in one byte.
const MORE: [i16; 26] = [
    5, 6, 10, 12, 15, 17, 24, 32, 64, 128, 255, 257, 258, 260, 264, 512, 1024, 2048, 16_384, -2,
    -4, -8, -255, -256, -32_767, -32_760,
];

/// A scale that is none, wherever one will do.
pub const BAD: i16 = 3;
/// Registers that there are not.
const ABSENT: [Reg; 4] = [16, 17, 128, 255];

/// BASE and INDEX lead to the cell by every scale, so code that is let pass runs on.
pub fn scene(code: Code) -> Job {
    let job = bare(code).fuel(3).reg(SMALL, 9).reg(LEFT, 7);
    job.reg(BASE, 4000).reg(INDEX, 6).cell(CELL, 64, 7)
}

pub fn scaled(scale: i16) -> Operand {
    at_index(BASE, scale, INDEX, 96 - 6 * i64::from(scale))
}

/// Every role of every instruction with operands.
fn positions() -> Vec<(Shape, usize)> {
    let all = shapes().into_iter();
    let each = all.flat_map(|shape| (0..shape.roles.len()).map(move |i| (shape, i)));
    each.collect()
}

/// Either side of every comparison.
fn sides(operand: Operand) -> Vec<Ocmp> {
    let other = reg(LEFT);
    let both = |relation| {
        let left = compare(relation, operand, other);
        [left, compare(relation, other, operand)]
    };
    RELATIONS.into_iter().flat_map(both).collect()
}

fn in_roles() -> Vec<Job> {
    let mut jobs = Vec::new();
    for (shape, position) in positions() {
        let job = |scale| scene(with(&shape, position, scaled(scale)));
        jobs.extend(TRIED.map(job));
    }
    for scale in TRIED {
        for condition in sides(scaled(scale)) {
            jobs.push(scene(chosen(condition.clone())));
            jobs.push(scene(once(condition)));
        }
    }
    let more = MORE.map(|scale| scene(ins(Add64(reg(TARGET), scaled(scale)))));
    jobs.extend(more);
    jobs
}

/// A bad base, scale and index, as far as named.
fn spoiled([base, scale, index]: [bool; 3], turn: usize) -> Operand {
    let absent = ABSENT[turn % ABSENT.len()];
    at_index(
        if base { absent } else { BASE },
        if scale {
            TRIED[turn % 9]
        } else {
            TRIED[9 + turn % 4]
        },
        if index { absent } else { INDEX },
        0,
    )
}

const BASE_AND_SCALE: [bool; 3] = [true, true, false];
const SCALE_AND_INDEX: [bool; 3] = [false, true, true];

/// The scale behind a bad base and ahead of a bad index, in every role; every other
/// choice of bad fields in one.
fn in_one_operand() -> Vec<Job> {
    let mut jobs = Vec::new();
    for (turn, (shape, position)) in positions().into_iter().enumerate() {
        let job = |bad| scene(with(&shape, position, spoiled(bad, turn)));
        jobs.extend([BASE_AND_SCALE, SCALE_AND_INDEX].map(job));
    }
    for (turn, bad) in [BASE_AND_SCALE, SCALE_AND_INDEX].into_iter().enumerate() {
        for (i, condition) in sides(spoiled(bad, turn)).into_iter().enumerate() {
            jobs.push(scene(tested(turn + i / 2, condition)));
        }
    }
    let (no, yes) = (false, true);
    let others = [
        [yes, yes, yes],
        [yes, no, yes],
        [yes, no, no],
        [no, no, yes],
    ];
    for (turn, bad) in others.into_iter().enumerate() {
        jobs.push(scene(ins(Mul64(spoiled(bad, turn)))));
        let condition = compare(Relation::Ge, reg(LEFT), spoiled(bad, turn + 1));
        jobs.push(scene(tested(turn, condition)));
    }
    jobs
}

/// In an IfElse or in a While, by turns.
fn tested(turn: usize, condition: Ocmp) -> Code {
    match turn % 2 {
        0 => chosen(condition),
        _ => once(condition),
    }
}

/// An operand that is refused with 4, of each kind with a register.
fn unnamed(turn: usize) -> Operand {
    match turn % 4 {
        0 => reg(16),
        1 => at_reg(255, 0),
        2 => at_index(16, 8, INDEX, 0),
        _ => at_index(BASE, 2, 17, 0),
    }
}

/// One operand with a bad register, another with a bad scale, in both orders, and
/// two with a bad scale.
fn in_two_operands() -> Vec<Job> {
    let mut jobs = Vec::new();
    for (turn, shape) in shapes().iter().enumerate() {
        let count = shape.roles.len();
        for (i, j) in [(0, 1), (0, 2), (1, 2)].into_iter().filter(|p| p.1 < count) {
            let (four, seven) = (unnamed(turn + i), scaled(TRIED[(turn + j) % 9]));
            for (first, second) in [(four, seven), (seven, four), (seven, scaled(BAD))] {
                let operands = (0..count).map(|at| match at {
                    _ if at == i => first,
                    _ if at == j => second,
                    _ => reg(TARGET),
                });
                jobs.push(scene(shape.of(&operands.collect::<Vec<_>>())));
            }
        }
    }
    for (turn, relation) in RELATIONS.into_iter().enumerate() {
        let (four, seven) = (unnamed(turn), scaled(TRIED[turn]));
        for (i, (left, right)) in [(four, seven), (seven, four)].into_iter().enumerate() {
            jobs.push(scene(tested(turn + i, compare(relation, left, right))));
        }
    }
    jobs
}

/// The xmm number stands in the body, ahead of the operand.
fn behind_xmm() -> Vec<Job> {
    let mut jobs = Vec::new();
    for (xmm, scale) in [(16, BAD), (255, 0), (16, 4), (15, BAD), (15, 8)] {
        let o = scaled(scale);
        let all = [Pextrq(o, xmm, 255), Pinsrd(xmm, o, 3), Pinsrq(xmm, o, 1)];
        jobs.extend(all.map(|instruction| scene(ins(instruction))));
    }
    jobs
}

pub fn jobs() -> Vec<Vec<u8>> {
    let groups = [
        in_roles(),
        in_one_operand(),
        in_two_operands(),
        behind_xmm(),
    ];
    let mut jobs: Vec<Vec<u8>> = groups.concat().iter().map(Job::to_bytes).collect();
    jobs.extend(scale_orders::jobs());
    super::each_once(jobs)
}

#[cfg(test)]
#[path = "scales_tests.rs"]
mod tests;
