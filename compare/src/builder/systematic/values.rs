//! Every operand kind in every operand place of every instruction and
//! comparison, with each field at its edges; an absent register in each field;
//! records that are no value.

use super::Scribe;
use crate::build::{at, at_index, at_reg, number, reg};
use crate::builder::calls::Call;
use crate::builder::record::{Entry, RawCall};
use crate::tree::{Maddr, Operand, INSTRUCTION_KINDS};

const KINDS: usize = 5;

const WORDS: [u64; 5] = [0, 1, u64::MAX, 1 << 63, (1 << 63) - 1];
const OFFSETS: [i64; 5] = [0, 1, -1, i64::MIN, i64::MAX];
const SCALES: [i16; 5] = [1, 2, 4, 8, 1];
const NUMBERS: [u8; 5] = [0, 1, 15, 7, 14];
const AMOUNTS: [u8; 5] = [0, 1, 255, 128, 127];

/// A byte of a body: an xmm number, or an amount or imm8.
#[derive(Clone, Copy, PartialEq, Eq)]
pub enum Byte {
    Xmm,
    Amount,
}

use Byte::{Amount, Xmm};

/// Kind, body and number of operands of each instruction.
pub const INSTRUCTIONS: [(u8, &[Byte], usize); INSTRUCTION_KINDS] = [
    (0x01, &[], 2),
    (0x02, &[], 2),
    (0x03, &[], 3),
    (0x04, &[], 2),
    (0x05, &[], 2),
    (0x06, &[], 2),
    (0x07, &[], 2),
    (0x08, &[], 1),
    (0x09, &[], 3),
    (0x0a, &[], 2),
    (0x0b, &[], 2),
    (0x0c, &[], 2),
    (0x0d, &[], 2),
    (0x0e, &[], 2),
    (0x0f, &[Xmm, Xmm], 0),
    (0x10, &[Xmm, Xmm], 0),
    (0x11, &[Xmm, Amount], 0),
    (0x12, &[Xmm, Amount], 0),
    (0x13, &[Xmm, Xmm, Amount], 0),
    (0x14, &[Xmm, Xmm], 0),
    (0x15, &[Xmm, Amount], 1),
    (0x16, &[Xmm, Amount], 1),
    (0x17, &[Xmm, Amount], 1),
    (0x18, &[Xmm, Xmm, Amount], 0),
    (0x19, &[], 2),
    (0x1a, &[], 2),
    (0x1b, &[], 2),
];

pub const COMPARISONS: std::ops::RangeInclusive<u8> = 0x30..=0x35;

/// The operand of a kind, with its fields at an edge.
fn operand(kind: usize, edge: usize) -> Operand {
    let (kind, edge) = (kind % KINDS, edge % 5);
    let base = NUMBERS[edge];
    match kind {
        0 => number(WORDS[edge]),
        1 => reg(base),
        2 => at(WORDS[edge]),
        3 => at_reg(base, OFFSETS[edge]),
        _ => {
            let (index, offset) = (NUMBERS[(edge + 2) % 5], OFFSETS[(edge + 1) % 5]);
            at_index(base, SCALES[edge], index, offset)
        }
    }
}

/// Over all a and b each place has each kind with each edge.
pub fn operands(count: usize, a: usize, b: usize) -> Vec<Operand> {
    let all = [operand(a, b), operand(b, a), operand(a + b, a)];
    all[..count].to_vec()
}

/// The kind, and a body with each byte at its edge.
pub fn head(kind: u8, body: &[Byte], edge: usize) -> Vec<u8> {
    let mut head = vec![kind];
    for (i, byte) in body.iter().enumerate() {
        let edges = if *byte == Xmm { NUMBERS } else { AMOUNTS };
        head.push(edges[(edge + i) % 5]);
    }
    head
}

pub fn lists(scribe: &mut Scribe) {
    instructions(scribe);
    comparisons(scribe);
    absent_registers(scribe);
    no_values(scribe);
}

fn instructions(scribe: &mut Scribe) {
    for (kind, body, count) in INSTRUCTIONS {
        scribe.list(1_010);
        scribe.take(&[Call::OpenBlock]);
        for a in 0..5 {
            let others = if count == 0 { 1 } else { 5 };
            for b in 0..others {
                let head = head(kind, body, a + b);
                let operands = operands(count, a, b);
                let raw = RawCall::with(Entry::Add, &head, &operands, scribe.rng);
                assert_eq!(scribe.recorder.call(&raw, scribe.recorder.room()), 0);
            }
        }
        scribe.take(&[Call::Close]);
    }
}

fn comparisons(scribe: &mut Scribe) {
    for entry in [Entry::OpenIfElse, Entry::OpenWhile] {
        scribe.list(40);
        for kind in COMPARISONS {
            for (a, b) in (0..25).map(|n| (n / 5, n % 5)) {
                let raw = RawCall::with(entry, &[kind], &operands(2, a, b), scribe.rng);
                assert_eq!(scribe.recorder.call(&raw, 40), 0);
                scribe.recorder.begin();
            }
        }
    }
}

/// The operands with registers, each with an absent one in one field.
fn unnamed(n: u8) -> [Operand; 4] {
    [
        reg(n),
        at_reg(n, 0),
        at_index(n, 1, 0, 0),
        Operand::Mem(Maddr::Index(15, 1, n, 0)),
    ]
}

fn absent_registers(scribe: &mut Scribe) {
    scribe.list(60);
    scribe.take(&[Call::OpenBlock]);
    for n in [16, 255] {
        for (kind, body, count) in INSTRUCTIONS {
            for (i, _) in body.iter().enumerate().filter(|(_, byte)| **byte == Xmm) {
                let mut head = head(kind, body, 2);
                head[1 + i] = n;
                refused(scribe, Entry::Add, &head, &operands(count, 1, 2));
            }
            absent_in_operands(scribe, Entry::Add, &head(kind, body, 2), count, n);
        }
    }
    for kind in COMPARISONS {
        let n = if kind & 1 == 0 { 16 } else { 255 };
        absent_in_operands(scribe, Entry::OpenIfElse, &[kind], 2, n);
        absent_in_operands(scribe, Entry::OpenWhile, &[kind], 2, n);
    }
}

fn absent_in_operands(scribe: &mut Scribe, entry: Entry, head: &[u8], count: usize, n: u8) {
    for i in 0..count {
        for bad in unnamed(n) {
            let mut operands = operands(count, 1, 2);
            operands[i] = bad;
            refused(scribe, entry, head, &operands);
        }
    }
}

fn refused(scribe: &mut Scribe, entry: Entry, head: &[u8], operands: &[Operand]) {
    let raw = RawCall::with(entry, head, operands, scribe.rng);
    assert_eq!(scribe.recorder.call(&raw, 60), 4);
}

/// Kinds that are none, and operand kinds that are none in each place. What a
/// kind does not have may be anything.
fn no_values(scribe: &mut Scribe) {
    scribe.list(60);
    scribe.take(&[Call::OpenBlock]);
    let entries = [Entry::Add, Entry::OpenIfElse, Entry::OpenWhile];
    for kind in [0x00, 0x1c, 0x1f, 0x20, 0x22, 0x2f, 0x36, 0x40, 0xff] {
        for entry in entries {
            no_value(scribe, entry, kind, None);
        }
    }
    for (kind, _, count) in INSTRUCTIONS {
        (0..count).for_each(|i| no_value(scribe, Entry::Add, kind, Some(i)));
        no_value(scribe, Entry::OpenWhile, kind, None);
    }
    for kind in COMPARISONS {
        (0..2).for_each(|i| no_value(scribe, Entry::OpenIfElse, kind, Some(i)));
        (0..2).for_each(|i| no_value(scribe, Entry::OpenWhile, kind, Some(i)));
        no_value(scribe, Entry::Add, kind, None);
    }
}

/// With an operand that is none, if a place is given.
fn no_value(scribe: &mut Scribe, entry: Entry, kind: u8, place: Option<usize>) {
    let mut raw = RawCall::with(entry, &[kind], &operands(3, 0, 1), scribe.rng);
    if let Some(i) = place {
        raw.record.operands[i] = [0x3f, 0x45, 0x00][(usize::from(kind) + i) % 3];
    }
    assert_eq!(scribe.recorder.call(&raw, 60), 2);
}
