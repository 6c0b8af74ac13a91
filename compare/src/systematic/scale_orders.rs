//! A bad scale beside everything else that code, cells or a job can be refused for,
//! ahead of it and behind it; and in every kind of part, also where no run gets to.

use super::comparisons::chosen;
use super::faults::places;
use super::refusals::of_bytes;
use super::scales::{scaled, scene, BAD};
use super::stage::*;
use crate::build::*;
use crate::job::{Job, CELL as CELL_BYTES, HEAD};
use crate::tree::Instruction::*;
use crate::tree::*;
use crate::writer::write;
use Relation::{Eq, Ne};

/// 16 bytes: the kind, a register's two, and from the fourth on the MIndex.
fn bad() -> Code {
    ins(Mov64(reg(TARGET), scaled(BAD)))
}

/// A Block that says so many bytes of codes.
fn part(length: usize, codes: &[&[u8]]) -> Vec<u8> {
    let mut out = vec![0x20];
    out.extend((length as u32).to_le_bytes());
    out.extend(codes.concat());
    out
}

/// The codes in a Block of just their length.
fn row(codes: &[&[u8]]) -> Vec<u8> {
    part(codes.concat().len(), codes)
}

/// 3 ahead of 7: the record cut at each of its bytes, by the end of the input and of
/// a part; as an only operand, as a second one, and in a comparison.
fn cut_short() -> Vec<Vec<u8>> {
    let whole = write(&ins(Mul64(scaled(BAD))));
    let second = write(&bad());
    let looped = write(&repeat(compare(Eq, scaled(BAD), reg(LEFT)), nothing()));
    let mut codes = Vec::new();
    for n in 1..=13 {
        codes.push(whole[..n].to_vec());
        codes.push(row(&[&whole[..n]]));
        codes.push(second[..2 + n].to_vec());
        codes.push(looped[..5 + n].to_vec());
    }
    codes.push(row(&[&whole]));
    codes
}

/// 7 ahead of what comes behind it: 2 and 3 in the next operand and in the next code,
/// 4 there, and bytes that follow.
fn ahead() -> Vec<Vec<u8>> {
    let bad = write(&bad());
    let first = write(&ins(Mov64(scaled(BAD), reg(SMALL))));
    let operand = &first[..14];
    let mut codes = vec![
        operand.to_vec(),
        [&bad[..], &[0]].concat(),
        row(&[&bad, &[0x10, 0, 16]]),
        row(&[&bad, &[0x10, 0]]),
        row(&[&bad, &[0x1c]]),
        row(&[&bad, &part(9, &[&[0x10, 0, 1]])]),
        [&row(&[&bad]), &[0x10][..]].concat(),
    ];
    for behind in [&[0x45, 0][..], &[0x00], &[0x40, 1, 2], &[0x41, 16]] {
        codes.push([operand, behind].concat());
    }
    codes
}

/// 7 in a comparison, ahead of lengths that exceed the part, of parts that lack their
/// code, and of bytes that follow in a part.
fn ahead_of_parts() -> Vec<Vec<u8>> {
    let condition = compare(Eq, reg(LEFT), scaled(BAD));
    let choice = write(&if_else(condition.clone(), step(), step()));
    let looped = write(&repeat(condition, step()));
    let mut codes = Vec::new();
    for (whole, fields) in [(choice, &[1, 5][..]), (looped, &[1])] {
        for &field in fields {
            for length in [0, 1, 11, 13, 255] {
                let mut off = whole.clone();
                off[field] = length;
                codes.push(off);
            }
        }
        let at = whole.len() - 1;
        codes.push(whole[..at].to_vec());
        codes.push([&whole[..], &[0]].concat());
    }
    codes
}

/// Behind other trouble: 2, 3, 4 and 6 come first.
fn behind() -> Vec<Vec<u8>> {
    let bad = write(&bad());
    let operand = &bad[3..];
    let sound = [0x30, 0x41, 0, 0x41, 0];
    let choice = |lengths: [u8; 2], parts: &[&[u8]]| {
        let head = [0x21, lengths[0], 0, 0, 0, lengths[1], 0, 0, 0];
        [&head[..], &sound, &parts.concat()].concat()
    };
    vec![
        [&[0x1c], &bad[..]].concat(),
        row(&[&[0x23], &bad]),
        [&[0x01, 0x45, 0], operand].concat(),
        [&[0x01, 0x41, 16], operand].concat(),
        row(&[&[0x10, 0, 16], &bad]),
        row(&[&part(2, &[&[0x10, 0]]), &bad]),
        part(bad.len() + 1, &[&bad]),
        row(&[&part(255, &[&bad])]),
        [&[0x10, 0, 1], &bad[..]].concat(),
        choice([3, 17], &[&[0x10, 0, 1], &bad]),
        choice([4, 16], &[&[0x10, 0, 1, 0], &bad]),
        choice([0, 16], &[&bad]),
        choice([16, 0], &[&bad]),
        [&[0x22, 17, 0, 0, 0], &sound, &bad[..]].concat(),
        [&[0x22, 16, 0, 0, 0, 0x36, 0x41, 0, 0x41, 0], &bad[..]].concat(),
    ]
}

/// 32 and 33 levels: at 32 the scale is refused, at 33 the depth; and a comparison at
/// 32 with a part that is too deep.
fn depths() -> Vec<Code> {
    let condition = compare(Eq, scaled(BAD), reg(LEFT));
    let mut codes = Vec::new();
    for levels in [32, 33] {
        let deep = |wrap: fn(Code) -> Code, inner| (1..levels).fold(inner, |code, _| wrap(code));
        let in_block = |code| block(vec![code]);
        codes.extend([
            deep(in_block, bad()),
            deep(|code| if_else(always(), code, step()), bad()),
            deep(|code| if_else(never(), step(), code), bad()),
            deep(|code| repeat(never(), code), bad()),
            deep(in_block, repeat(condition.clone(), step())),
            deep(in_block, if_else(condition.clone(), step(), step())),
        ]);
    }
    codes
}

/// Refused though no run would get there: in parts that are not taken, behind a fault,
/// and behind a loop that does not end.
fn not_reached() -> Vec<Code> {
    let choice = || chosen(compare(Eq, scaled(BAD), reg(LEFT)));
    let looped = || repeat(compare(Eq, reg(LEFT), scaled(BAD)), step());
    let mut codes = Vec::new();
    for unreached in [bad(), choice(), looped()] {
        codes.extend([
            if_else(always(), step(), unreached.clone()),
            if_else(never(), unreached.clone(), step()),
            repeat(never(), unreached.clone()),
            block(vec![ins(Shl64(reg(TARGET), number(64))), unreached.clone()]),
            block(vec![repeat(always(), nothing()), unreached.clone()]),
            if_else(always(), nothing(), repeat(never(), block(vec![unreached]))),
        ]);
    }
    codes
}

/// Cells that are refused too: code is checked first. With a scale that there is, the
/// cells are refused.
fn beside_cells() -> Vec<Job> {
    let cells = [(0, 7, 0), (0, 8, 256), (4090, 64, 0), (TOP, 16, 0)];
    let mut jobs = Vec::new();
    for (address, tag, value) in cells {
        for scale in [BAD, 8] {
            let job = scene(ins(Mov64(reg(TARGET), scaled(scale))));
            jobs.push(job.cell(address, tag, value));
        }
    }
    jobs
}

/// The job's own lengths and count come ahead of its code.
fn beside_sizes() -> Vec<Vec<u8>> {
    let job = scene(bad()).to_bytes();
    let counted = |count: u16| {
        let mut bytes = job.clone();
        bytes[HEAD - 2..HEAD].copy_from_slice(&count.to_le_bytes());
        bytes
    };
    let cut = job[..HEAD + CELL_BYTES - 1].to_vec();
    vec![counted(1025), counted(1024), counted(0), cut]
}

/// Neither fuel nor a fault ahead of it matters.
fn beside_ends() -> Vec<Job> {
    let looped = |scale| repeat(compare(Ne, reg(LEFT), scaled(scale)), nothing());
    let fault = ins(Mov64(reg(RSP), scaled(BAD)));
    vec![
        scene(looped(BAD)).fuel(0),
        scene(looped(1)).fuel(0),
        scene(looped(4)).fuel(1),
        scene(fault),
        scene(bad()).reg(INDEX, TOP),
    ]
}

pub fn jobs() -> Vec<Vec<u8>> {
    let codes = [cut_short(), ahead(), ahead_of_parts(), behind()].concat();
    let mut jobs: Vec<Job> = codes.iter().map(|code| of_bytes(code)).collect();
    let inside = places(bad())
        .into_iter()
        .chain(depths())
        .chain(not_reached());
    jobs.extend(inside.map(scene));
    jobs.extend(beside_cells());
    jobs.extend(beside_ends());
    let mut bytes: Vec<Vec<u8>> = jobs.iter().map(Job::to_bytes).collect();
    bytes.extend(beside_sizes());
    bytes
}

#[cfg(test)]
#[path = "scale_orders_tests.rs"]
mod tests;
