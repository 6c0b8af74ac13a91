//! Exact addresses: at, beside and beyond cells, below 0 and beyond 64 bits,
//! with offsets and scales at their edges; cells of every tag.

use super::stage::*;
use crate::build::*;
use crate::job::Job;
use crate::reader::Rule;
use crate::tree::Instruction::*;
use crate::tree::*;

/// Where the cells stand: at both ends, in the middle, and at 4096.
const CELLS: [u64; 4] = [0, CELL, 1 << 63, TOP - 7];

/// Register and offset of MReg.
const BASES: [(u64, i64); 20] = [
    (0, 0),
    (0, -1),
    (0, 1),
    (1, -1),
    (7, -7),
    (CELL - 1, 1),
    (CELL + 1, -1),
    (CELL, 1),
    (CELL, -1),
    (TOP, 1),
    (TOP, -7),
    (TOP - 8, 1),
    (TOP - 7, 0),
    (TOP, i64::MAX),
    (TOP, i64::MIN),
    (1, i64::MAX),
    (0, i64::MIN),
    (1 << 63, i64::MIN),
    (1 << 63, i64::MAX),
    ((1 << 63) + CELL, i64::MIN),
];

/// Base, scale, index and offset of MIndex.
type Sum = (u64, i16, u64, i64);

const INDEXES: [Sum; 24] = [
    (0, 8, 0, 0),
    (CELL, 4, 0, 0),
    (0, 1, CELL, 0),
    (0, 8, 512, 0),
    (0, 2, 1 << 63, 0),
    (0, 2, 0, 0),
    (0, 2, 1, -3),
    (0, 2, 1, -2),
    (1 << 62, 2, 1 << 61, i64::MIN),
    ((1 << 62) + CELL, 2, 1 << 61, i64::MIN),
    (TOP, 1, TOP, 0),
    (TOP, 1, TOP, i64::MIN),
    (TOP, 1, 1, 0),
    (TOP, 1, 1, -8),
    (1 << 63, 1, 1 << 63, 0),
    (0, 8, (1 << 60) + 512, i64::MIN),
    (0, 8, 1, -8),
    (CELL - 1, 4, 1 << 61, i64::MIN),
    (0, 8, 1 << 60, i64::MIN),
    ((1 << 62) - 1, 1, 1 << 62, i64::MIN),
    (0, 8, TOP, 0),
    (TOP, 8, TOP, i64::MAX),
    (0, 1, 0, i64::MIN),
    (1 << 63, 8, (1 << 60) - (1 << 45), i64::MIN),
];

/// What these stand for, by last year's rule.
const LAST_YEARS: [Sum; 24] = [
    (0, 0, TOP, 0),
    (CELL, 0, TOP, 0),
    (0, 1, CELL, 0),
    (0, 8, 512, 0),
    (0, 2, 1 << 63, 0),
    (0, -1, 0, 0),
    (0, -1, 1, 0),
    (0, -1, 1, 1),
    (TOP, -1, TOP, 0),
    (TOP, -1, TOP, 4096),
    (TOP, 1, TOP, 0),
    (TOP, 1, TOP, i64::MIN),
    (TOP, 1, 1, 0),
    (TOP, 1, 1, -8),
    (1 << 63, 1, 1 << 63, 0),
    (1 << 63, -1, 1 << 63, 4096),
    (0, -32_768, 1, 32_768),
    (CELL, -32_768, 1 << 48, i64::MAX),
    (TOP, -32_768, 1 << 49, 1),
    (1 << 63, -32_768, 1 << 49, i64::MAX),
    (0, 32_767, TOP, 0),
    (TOP, 32_767, TOP, i64::MAX),
    (0, -32_768, TOP, i64::MIN),
    (1 << 63, 32_767, 1 << 48, i64::MIN),
];

fn scene(instruction: Instruction) -> Job {
    let mut job = bare(ins(instruction)).reg(SMALL, 9).reg(TARGET, 10);
    for (i, address) in CELLS.into_iter().enumerate() {
        job = job.cell(address, 64, 100 + i as u64);
    }
    job
}

/// Read as a source, written as a destination, or both, by turns.
fn used(turn: usize, operand: Operand) -> Vec<Instruction> {
    let read = Mov64(reg(TARGET), operand);
    let written = Mov64(operand, reg(SMALL));
    match turn % 3 {
        0 => vec![read, written],
        1 => vec![read],
        _ => vec![written],
    }
}

fn with_registers(rule: Rule) -> Vec<Job> {
    let (indexes, with_itself) = match rule {
        Rule::Today => (INDEXES, [(2048, 1), (1 << 63, 1), (TOP, 8), (0, 2)]),
        Rule::LastYear => (LAST_YEARS, [(2048, 1), (1 << 63, 1), (TOP, -1), (CELL, 0)]),
    };
    let mut jobs = Vec::new();
    for (turn, (base, offset)) in BASES.into_iter().enumerate() {
        let uses = used(turn, at_reg(BASE, offset));
        jobs.extend(uses.into_iter().map(|i| scene(i).reg(BASE, base)));
    }
    for (turn, (base, scale, index, offset)) in indexes.into_iter().enumerate() {
        let uses = used(turn, at_index(BASE, scale, INDEX, offset));
        let placed = uses.into_iter().map(scene);
        jobs.extend(placed.map(|job| job.reg(BASE, base).reg(INDEX, index)));
    }
    for (both, scale) in with_itself {
        let read = Mov64(reg(TARGET), at_index(BASE, scale, BASE, 0));
        jobs.push(scene(read).reg(BASE, both));
    }
    jobs
}

fn constants() -> Vec<Job> {
    let all = [
        0,
        1,
        7,
        CELL - 1,
        CELL,
        CELL + 1,
        1 << 63,
        TOP - 8,
        TOP - 7,
        TOP - 6,
        TOP,
    ];
    let read = all.map(|address| scene(Mov64(reg(TARGET), at(address))));
    let written = [0, CELL + 1, TOP - 7, TOP].map(|address| scene(Mov64(at(address), reg(SMALL))));
    read.into_iter().chain(written).collect()
}

/// A cell of each tag, read and written, and the address just behind it.
fn tags() -> Vec<Job> {
    let mut jobs = Vec::new();
    for tag in [8, 16, 32, 64] {
        for address in [CELL, CELL + u64::from(tag / 8)] {
            for instruction in [
                Add64(reg(TARGET), at(address)),
                Add64(at(address), reg(SMALL)),
            ] {
                let job = bare(ins(instruction)).reg(SMALL, 9).reg(TARGET, 10);
                jobs.push(job.cell(CELL, tag, (1 << (tag - 1)) | 1));
            }
        }
    }
    jobs
}

pub fn jobs(rule: Rule) -> Vec<Job> {
    let mut jobs = with_registers(rule);
    jobs.extend(constants());
    jobs.extend(tags());
    jobs
}
