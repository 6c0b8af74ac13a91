//! Every refusal that a job can meet, and the nearest that is none.

use super::stage::{bare, compare, LEFT, TOP};
use crate::build::*;
use crate::job::{Job, CELL, HEAD, LONGEST};
use crate::tree::Instruction::*;
use crate::tree::*;

/// Add64 Rax, 1.
const ADD: [u8; 12] = [0x02, 0x41, 0, 0x40, 1, 0, 0, 0, 0, 0, 0, 0];

pub fn of_bytes(code: &[u8]) -> Job {
    let job = bare(block(Vec::new()));
    Job {
        code: code.to_vec(),
        ..job
    }
}

/// 2 for each kind that no code has, and where an operand or a comparison
/// should be.
fn kinds() -> Vec<Job> {
    let mut codes: Vec<Vec<u8>> = Vec::new();
    for kind in [
        0x00, 0x1c, 0x1f, 0x23, 0x2f, 0x30, 0x35, 0x36, 0x40, 0x44, 0x45, 0xff,
    ] {
        codes.push(vec![kind, 0, 0, 0, 0, 0]);
    }
    for kind in [0x00, 0x01, 0x20, 0x30, 0x3f, 0x45, 0xff] {
        codes.push(vec![0x02, 0x41, 0, kind, 0]);
    }
    for kind in [0x01, 0x2f, 0x36, 0x41] {
        codes.push(vec![
            0x22, 5, 0, 0, 0, kind, 0x41, 0, 0x41, 0, 0x20, 0, 0, 0, 0,
        ]);
    }
    codes.iter().map(|code| of_bytes(code)).collect()
}

/// 1 and 3: nothing, too much, and each prefix of an instruction.
fn lengths() -> Vec<Job> {
    let mut jobs = vec![of_bytes(&[]), of_bytes(&vec![0; 16_385])];
    jobs.extend((1..=ADD.len()).map(|n| of_bytes(&ADD[..n])));
    let cut: [&[u8]; 8] = [
        &[0x20],
        &[0x20, 0, 0, 0],
        &[0x20, 1, 0, 0, 0, 0x0f],
        &[0x21, 3, 0, 0, 0, 3, 0, 0],
        &[0x21, 0, 0, 0, 0, 0, 0, 0, 0, 0x30, 0x41, 0, 0x41, 0],
        &[0x22, 0, 0, 0, 0, 0x30, 0x41, 0, 0x41, 0],
        &[0x22, 3, 0, 0, 0, 0x30, 0x41],
        &[0x13, 1, 2],
    ];
    jobs.extend(cut.map(of_bytes));
    jobs
}

/// 4: a number above 15 in each field that holds one.
fn numbers() -> Vec<Job> {
    let codes: [&[u8]; 12] = [
        &[0x01, 0x41, 16, 0x41, 0],
        &[0x01, 0x41, 15, 0x41, 255],
        &[0x08, 0x43, 16, 0, 0, 0, 0, 0, 0, 0, 0],
        &[0x08, 0x44, 16, 1, 0, 16, 0, 0, 0, 0, 0, 0, 0, 0],
        &[0x08, 0x44, 15, 1, 0, 16, 0, 0, 0, 0, 0, 0, 0, 0],
        &[0x0f, 16, 16],
        &[0x0f, 15, 16],
        &[0x11, 16, 32],
        &[0x13, 0, 16, 255],
        &[0x15, 16, 255, 0x41, 16],
        &[0x16, 16, 0, 0x41, 0],
        &[0x18, 0, 16, 4],
    ];
    codes.map(of_bytes).into()
}

/// 6: lengths that go beyond the part, and bytes that follow a code.
fn parts() -> Vec<Job> {
    let compared = [0x30, 0x41, 0, 0x41, 0];
    let add = [0x0f, 1, 2];
    let with = |head: &[u8], tail: &[u8]| of_bytes(&[head, &compared, tail].concat());
    vec![
        of_bytes(&[0x20, 4, 0, 0, 0, 0x0f, 1, 2]),
        of_bytes(&[0x20, 255, 255, 255, 255, 0x0f, 1, 2]),
        of_bytes(&[0x20, 3, 0, 0, 0, 0x0f, 1, 2, 0x0f, 1, 2]),
        of_bytes(&[&ADD[..], &[0]].concat()),
        with(&[0x21, 3, 0, 0, 0, 4, 0, 0, 0], &[add, add].concat()),
        with(&[0x21, 255, 255, 255, 255, 255, 255, 255, 255], &add),
        with(
            &[0x21, 4, 0, 0, 0, 3, 0, 0, 0],
            &[0x0f, 1, 2, 0, 0x0f, 1, 2],
        ),
        with(
            &[0x21, 3, 0, 0, 0, 4, 0, 0, 0],
            &[0x0f, 1, 2, 0x0f, 1, 2, 0],
        ),
        with(&[0x21, 3, 0, 0, 0, 0, 0, 0, 0], &add),
        with(&[0x22, 4, 0, 0, 0], &add),
        with(&[0x22, 4, 0, 0, 0], &[0x0f, 1, 2, 0]),
        with(&[0x22, 3, 0, 0, 0], &[0x0f, 1, 2, 0]),
    ]
}

/// 5: codes as deep as they may be, and one deeper, by each structure.
fn depths() -> Vec<Job> {
    let add = || ins(Paddd(1, 2));
    let always = || compare(Relation::Eq, reg(LEFT), reg(LEFT));
    let never = || compare(Relation::Ne, reg(LEFT), reg(LEFT));
    let deep = |wrap: &dyn Fn(Code) -> Code, depth| (1..depth).fold(add(), |code, _| wrap(code));
    let mut jobs = Vec::new();
    for depth in [32, 33] {
        jobs.push(bare(deep(&|code| block(vec![code]), depth)));
        jobs.push(bare(deep(&|code| if_else(always(), code, add()), depth)));
        jobs.push(bare(deep(&|code| if_else(never(), add(), code), depth)));
        jobs.push(bare(deep(&|code| repeat(never(), code), depth)));
    }
    jobs
}

/// 13, 14 and 15, each rule's edge, and the order of the rules and cells.
fn cells() -> Vec<Job> {
    let lists: [&[(u64, u8, u64)]; 21] = [
        &[(0, 0, 0)],
        &[(0, 7, 0)],
        &[(0, 63, 0)],
        &[(0, 65, 0)],
        &[(0, 255, 0)],
        &[(0, 8, 255)],
        &[(0, 8, 256)],
        &[(0, 16, 65_536)],
        &[(0, 32, 1 << 32)],
        &[(0, 64, TOP)],
        &[(0, 64, 0), (7, 64, 0)],
        &[(0, 64, 0), (8, 64, 0)],
        &[(8, 64, 0), (0, 64, 0)],
        &[(4, 32, 0), (7, 8, 0)],
        &[(TOP, 8, 0)],
        &[(TOP, 16, 0)],
        &[(TOP - 7, 64, 0)],
        &[(TOP - 6, 64, 0)],
        &[(TOP, 8, 256), (TOP, 8, 0)],
        &[(TOP, 16, 0), (0, 9, 0)],
        &[(4, 64, 0), (4, 8, 256), (4, 9, 0)],
    ];
    let with = |list: &[(u64, u8, u64)], code: &[u8]| {
        let add = |job: Job, &(address, tag, value): &(u64, u8, u64)| job.cell(address, tag, value);
        list.iter().fold(of_bytes(code), add)
    };
    let mut jobs: Vec<Job> = lists.iter().map(|list| with(list, &ADD)).collect();
    jobs.push(with(&[(0, 0, 0)], &ADD[..11]));
    jobs
}

/// 41, 42 and 12: the job's own lengths and count.
fn sizes() -> Vec<Vec<u8>> {
    let job = of_bytes(&ADD).cell(0, 64, 0).cell(8, 64, 0).to_bytes();
    let mut bytes: Vec<Vec<u8>> = [0, 1, 404, HEAD - 1, HEAD, HEAD + 1]
        .map(|n| job[..n].to_vec())
        .into();
    bytes.push(job[..HEAD + 2 * CELL - 1].to_vec());
    bytes.push(job[..HEAD + 2 * CELL].to_vec());
    bytes.push(vec![0; LONGEST + 1]);
    for count in [1024, 1025, 65_535] {
        let mut counted = job.clone();
        counted[HEAD - 2..HEAD].copy_from_slice(&(count as u16).to_le_bytes());
        bytes.push(counted);
    }
    bytes
}

pub fn jobs() -> Vec<Vec<u8>> {
    let groups = [kinds(), lengths(), numbers(), parts(), depths(), cells()];
    let mut bytes: Vec<Vec<u8>> = groups.concat().iter().map(Job::to_bytes).collect();
    bytes.extend(sizes());
    bytes
}
