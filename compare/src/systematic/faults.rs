//! The faults 31 to 35 at every kind of place, the order of the checks, and the
//! two destinations of Mulx64. 36 is in `wild.rs`.

use super::stage::*;
use crate::build::*;
use crate::job::Job;
use crate::reader::Rule;
use crate::tree::Instruction::*;
use crate::tree::*;
use Relation::{Eq, Ne};

fn faulty() -> Vec<Code> {
    vec![
        ins(Mov64(reg(TARGET), at(BESIDE))),
        ins(Mov64(at(BESIDE), reg(SMALL))),
        ins(Shl64(reg(TARGET), number(64))),
        ins(Pslld(1, 32)),
        ins(Vpslldq(1, 2, 5)),
    ]
}

/// The code first, behind others, in a Block, in either part of an IfElse, in
/// a loop's first and second round, and behind a loop.
pub fn places(bad: Code) -> Vec<Code> {
    let always = compare(Eq, reg(LEFT), reg(LEFT));
    let never = compare(Ne, reg(LEFT), reg(LEFT));
    let left = |n| compare(Ne, reg(LEFT), number(n));
    let less = ins(Sub64(reg(LEFT), number(1)));
    let second = if_else(left(1), step(), bad.clone());
    let rounds = block(vec![second, less.clone()]);
    vec![
        bad.clone(),
        block(vec![bad.clone(), step()]),
        block(vec![step(), block(vec![step(), bad.clone()]), step()]),
        if_else(always.clone(), bad.clone(), step()),
        if_else(never, step(), bad.clone()),
        repeat(always, bad.clone()),
        repeat(left(0), rounds),
        block(vec![repeat(left(0), less), bad]),
    ]
}

/// 31 in a comparison, on either side, in either structure, nested, and in a
/// loop's second test.
fn comparisons() -> Vec<Code> {
    let bare = at(BESIDE);
    let sides = [
        compare(Eq, bare, reg(SMALL)),
        compare(Ne, reg(SMALL), bare),
        compare(Eq, bare, at_reg(NEAR, -4001)),
    ];
    let always = compare(Eq, reg(LEFT), reg(LEFT));
    let mut codes = Vec::new();
    for bad in sides {
        let chosen = if_else(bad.clone(), step(), step());
        codes.push(chosen.clone());
        codes.push(repeat(bad, step()));
        codes.push(if_else(always.clone(), chosen.clone(), step()));
        codes.push(repeat(always.clone(), block(vec![step(), chosen])));
    }
    let moves = ins(Mov64(reg(NEAR), number(BESIDE)));
    let second = compare(Ne, reg(LEFT), at_reg(NEAR, 0));
    let near = ins(Mov64(reg(NEAR), number(CELL)));
    codes.push(block(vec![near, repeat(second, moves)]));
    codes
}

/// Two checks fail: the source's order decides.
fn orders() -> Vec<Code> {
    let (bare, rsp, none) = (at(BESIDE), reg(RSP), number(1));
    let all = [
        Mov64(rsp, bare),
        Add64(none, bare),
        Sub64(bare, at(4112)),
        AddLea64(rsp, bare, bare),
        AddLea64(none, reg(SMALL), bare),
        AddLea64(bare, at(CELL), reg(SMALL)),
        Mulx64(rsp, none, bare),
        Shl64(rsp, number(64)),
        Shl64(none, bare),
        Shr64(bare, number(TOP)),
        Shr64(at(4112), at(4104)),
        Shl64(rsp, number(63)),
    ];
    all.into_iter().map(ins).collect()
}

/// Mulx64 writes the low half, then resolves the high destination. Rdx is
/// CELL, so times 1 the low half is the address of a cell.
fn products(rule: Rule) -> Vec<Code> {
    let through_low = match rule {
        Rule::Today => at_index(BASE, 1, TARGET, -8192),
        Rule::LastYear => at_index(BASE, -1, TARGET, 0),
    };
    let (rsp, none, bare) = (reg(RSP), number(1), at(BESIDE));
    let (low, high) = (reg(TARGET), reg(OTHER));
    let by = number(1);
    let all = [
        Mulx64(high, rsp, by),
        Mulx64(high, none, by),
        Mulx64(high, bare, by),
        Mulx64(rsp, low, by),
        Mulx64(none, low, by),
        Mulx64(bare, low, by),
        Mulx64(bare, at(4104), by),
        Mulx64(at_reg(TARGET, 0), low, by),
        Mulx64(at_reg(TARGET, 1), low, by),
        Mulx64(at_reg(NEAR, 96), reg(NEAR), by),
        Mulx64(at_index(TARGET, 1, TARGET, -4096), low, by),
        Mulx64(through_low, low, by),
        Mulx64(at(CELL), at(CELL), by),
        Mulx64(at(4104), at(CELL), at(4104)),
        Mulx64(low, low, reg(RDX)),
        Mulx64(reg(RDX), low, reg(RDX)),
        Mulx64(low, reg(RDX), reg(RDX)),
        Mulx64(high, low, at_reg(TARGET, 0)),
    ];
    all.into_iter().map(ins).collect()
}

pub fn jobs(rule: Rule) -> Vec<Job> {
    let mut codes: Vec<Code> = faulty().into_iter().flat_map(places).collect();
    codes.extend(comparisons());
    codes.extend(orders());
    let mut jobs: Vec<Job> = codes.into_iter().map(|c| stage(c).reg(LEFT, 2)).collect();
    jobs.extend(products(rule).into_iter().map(|c| stage(c).reg(RDX, CELL)));
    jobs
}
