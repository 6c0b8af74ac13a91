//! Popcnt64, Lzcnt64 and Tzcnt64: words at the edges of each count, flags and
//! fill, destinations that are not read or meet their source, the order of the
//! checks, and spoiled records.

use super::refusals::of_bytes;
use super::roles::{bare_memory, kinds};
use super::stage::*;
use crate::build::*;
use crate::job::Job;
use crate::reader::Rule;
use crate::tree::Instruction::*;
use crate::tree::*;

/// None, all, one at each end and in the middle, all but one, every other one.
const WORDS: [u64; 12] = [
    0,
    TOP,
    1,
    2,
    1 << 31,
    1 << 32,
    1 << 62,
    1 << 63,
    TOP - 1,
    TOP / 2,
    TOP / 3,
    TOP / 3 * 2,
];

fn words(count: OfTwo) -> Vec<Job> {
    let counted = |word| stage(ins(count(reg(TARGET), reg(SMALL)))).reg(SMALL, word);
    WORDS.map(counted).into()
}

/// A one at each place, then ones from each place up, then from each down;
/// what is counted at a place goes to a cell of its own.
fn places(count: OfTwo) -> Vec<Job> {
    let ways: [(u64, OfTwo); 3] = [(1, Shl64), (TOP, Shl64), (TOP, Shr64)];
    let counted = |(first, shift): (u64, OfTwo)| {
        let round = [
            count(at_index(BASE, 8, INDEX, 0), reg(LEFT)),
            shift(reg(LEFT), number(1)),
            Add64(reg(INDEX), number(1)),
        ];
        let left = compare(Relation::Ne, reg(LEFT), number(0));
        let rounds = repeat(left, block(round.map(ins).into()));
        let job = bare(rounds).fuel(65).reg(LEFT, first).reg(BASE, CELL);
        (0..64).fold(job, |job, i| job.cell(CELL + 8 * i, 64, 1000 + i))
    };
    ways.map(counted).into()
}

/// Neither of carry and overflow, each and both; as fill also with all others.
fn flags(count: OfTwo) -> Vec<Job> {
    let mut jobs = Vec::new();
    for fill in [0, 1, 2048, 2049, TOP] {
        for old in [0, 1, 2048, 2049] {
            for word in [0, 6, TOP] {
                let job = bare(ins(count(reg(TARGET), number(word))));
                jobs.push(job.fill(fill).flags(old));
            }
        }
    }
    jobs
}

/// What stood in the destination does not matter.
fn destinations(count: OfTwo) -> Vec<Job> {
    let mut jobs = Vec::new();
    for old in [0, 1 << 63, TOP] {
        for place in [reg(TARGET), at(CELL)] {
            let job = bare(ins(count(place, number(40))));
            jobs.push(job.reg(TARGET, old).cell(CELL, 64, old));
        }
    }
    jobs
}

/// Destination and source are one place, or one of them is found through the
/// register that is the other. Where they are one, a count of 0 is no zero
/// source and a zero source no count of 0.
fn meetings(rule: Rule, count: OfTwo) -> Vec<Job> {
    let mut jobs = Vec::new();
    for word in [0, 1, 1 << 63, TOP] {
        for place in [reg(TARGET), at(CELL)] {
            let job = bare(ins(count(place, place)));
            jobs.push(job.reg(TARGET, word).cell(CELL, 64, word));
        }
    }
    let [_, _, fixed, near, index] = kinds(rule, 0);
    let pairs = [
        (reg(NEAR), near),
        (near, reg(NEAR)),
        (reg(BASE), index),
        (reg(INDEX), index),
        (index, reg(INDEX)),
        (near, index),
        (at_reg(NEAR, 104), near),
        (at_reg(RSP, 8), fixed),
        (near, reg(RSP)),
    ];
    jobs.extend(pairs.map(|(dst, src)| stage(ins(count(dst, src)))));
    jobs
}

/// 32, and 31 or 36 ahead of it, each behind a count that stays done.
fn faults(rule: Rule, count: OfTwo) -> Vec<Job> {
    let bare = bare_memory(rule);
    let bad = [reg(RSP), number(1), bare[0]];
    let sources = [reg(SMALL); 3].into_iter().chain(bare);
    let pairs = bad.into_iter().cycle().zip(sources);
    let behind = |(dst, src)| {
        let done = count(reg(OTHER), reg(SMALL));
        stage(block(vec![ins(done), ins(count(dst, src))]))
    };
    pairs.map(behind).collect()
}

/// 3, 4, 2 and 6 in a record of two registers.
fn records(kind: u8) -> Vec<Job> {
    let operands: [&[u8]; 7] = [
        &[],
        &[0x41, 0],
        &[0x41, 0, 0x41],
        &[0x41, 16, 0x41, 0],
        &[0x41, 0, 0x41, 16],
        &[0x41, 0, kind, 0],
        &[0x41, 0, 0x41, 0, kind],
    ];
    let record = |behind: &[u8]| of_bytes(&[&[kind], behind].concat());
    operands.map(record).into()
}

pub fn jobs(rule: Rule) -> Vec<Job> {
    let groups = [words, places, flags, destinations];
    let mut jobs = Vec::new();
    for group in groups {
        jobs.extend(COUNTS.into_iter().flat_map(group));
    }
    for group in [meetings, faults] {
        jobs.extend(COUNTS.into_iter().flat_map(|count| group(rule, count)));
    }
    jobs.extend((0x19..=0x1b).flat_map(records));
    jobs
}
