//! The instructions on xmm registers: words at their edges, every kind of
//! amount, permutation, index and count, and one register in both roles.

use super::stage::*;
use crate::build::*;
use crate::job::Job;
use crate::state::Quad;
use crate::tree::Instruction::*;
use crate::tree::*;

const EDGES: Quad = [0, 1, 1 << 31, u32::MAX];
const WORD: u64 = (1 << 63) | (5 << 32) | 0x8000_0001;

fn lanes(work: Instruction) -> Job {
    let job = bare(ins(work)).xmm(1, [1, 2, 3, 4]);
    job.xmm(2, [0, 1 << 31, u32::MAX, 7]).reg(TARGET, 10)
}

fn turned(by: usize) -> Quad {
    let mut quad = EDGES;
    quad.rotate_left(by);
    quad
}

/// Lane by lane, each edge word with each other one.
fn pairs() -> Vec<Job> {
    let mut jobs = Vec::new();
    for by in 0..4 {
        for work in [Paddd(1, 2), Pxor(1, 2), Pcmpeqd(1, 2)] {
            jobs.push(lanes(work).xmm(1, EDGES).xmm(2, turned(by)));
        }
    }
    for work in [Paddd(15, 15), Pxor(15, 15), Pcmpeqd(15, 15), Paddd(0, 15)] {
        jobs.push(lanes(work).xmm(15, turned(1)));
    }
    jobs
}

fn shifts() -> Vec<Job> {
    let mut jobs = Vec::new();
    for by in [0, 1, 15, 16, 31, 32, 33, 64, 255] {
        for work in [Pslld(1, by), Psrld(1, by)] {
            jobs.push(lanes(work).xmm(1, [1, 0x8000_0001, u32::MAX, 77]));
        }
    }
    for count in [0, 3, 4, 5, 8, 255] {
        jobs.push(lanes(Vpslldq(1, 2, count)));
    }
    jobs.push(lanes(Vpslldq(2, 2, 4)));
    jobs
}

fn selections() -> Vec<Job> {
    let mut jobs = Vec::new();
    for permutation in [0, 1, 4, 16, 64, 27, 147, 228, 255] {
        jobs.push(lanes(Pshufd(2, 1, permutation)));
    }
    jobs.push(lanes(Pshufd(1, 1, 27)));
    for index in [0, 1, 2, 3, 254, 255] {
        let source = Operand::Const(WORD);
        for work in [Pextrq(reg(TARGET), 2, index), Pinsrq(1, source, index)] {
            jobs.push(lanes(work));
        }
    }
    for index in [0, 1, 2, 3, 4, 5, 255] {
        jobs.push(lanes(Pinsrd(1, Operand::Const(WORD), index)));
    }
    jobs
}

pub fn jobs() -> Vec<Job> {
    let mut jobs = pairs();
    jobs.extend(shifts());
    jobs.extend(selections());
    jobs
}
