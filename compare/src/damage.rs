//! Damage to codes, cells and whole jobs. Some of it turns out harmless.

use crate::cells::{Cell, MOST};
use crate::job::{Job, CELL, HEAD, LONGEST};
use crate::reader::{self, Rule};
use crate::rng::Rng;
use crate::tree::{Code, Node};

/// Bytes at the borders of the ranges of kinds.
const KINDS: [u8; 20] = [
    0x00, 0x01, 0x08, 0x0f, 0x18, 0x19, 0x1b, 0x1c, 0x1f, 0x20, 0x21, 0x22, 0x23, 0x2f, 0x30, 0x35,
    0x36, 0x40, 0x44, 0x45,
];

pub fn code(rule: Rule, rng: &mut Rng, bytes: &mut Vec<u8>) {
    let times = rng.pick(&[1, 1, 1, 2, 3]);
    for _ in 0..times {
        damage_once(rule, rng, bytes);
    }
}

fn damage_once(rule: Rule, rng: &mut Rng, bytes: &mut Vec<u8>) {
    let at = rng.below(bytes.len() + 1);
    let byte = rng.edge_byte();
    match rng.below(12) {
        0 => change(bytes, at, byte),
        1 => change(bytes, at, rng.pick(&KINDS)),
        2 if at < bytes.len() => bytes[at] ^= 1 << rng.below(8),
        3 if at < bytes.len() => drop(bytes.remove(at)),
        4 => bytes.insert(at, byte),
        5 => bytes.insert(at, rng.pick(&KINDS)),
        6 => bytes.truncate(at),
        7 => bytes.extend(vec![byte; 1 + rng.below(3)]),
        8 => {
            let copy = bytes[at..bytes.len().min(at + 12)].to_vec();
            bytes.splice(at..at, copy);
        }
        9 => raise_number(rng, bytes),
        _ => lengths(rule, rng, bytes),
    }
}

fn change(bytes: &mut [u8], at: usize, byte: u8) {
    if at < bytes.len() {
        bytes[at] = byte;
    }
}

/// Where operands keep register numbers, as far as kinds can be told apart
/// from other bytes: after 41, 43 and 44, and the index of a 44.
pub fn number_places(bytes: &[u8]) -> Vec<usize> {
    let mut places = Vec::new();
    for (i, byte) in bytes.iter().enumerate() {
        if matches!(byte, 0x41 | 0x43 | 0x44) {
            places.push(i + 1);
        }
        if *byte == 0x44 {
            places.push(i + 4);
        }
    }
    places.retain(|&i| i < bytes.len());
    places
}

/// Puts a register out of range.
fn raise_number(rng: &mut Rng, bytes: &mut [u8]) {
    let places = number_places(bytes);
    if !places.is_empty() {
        let at = rng.pick(&places);
        bytes[at] = rng.pick(&[16, 17, 128, 255]);
    }
}

/// Sets a length off by a little, by much, or moves it between two parts, where
/// the rule accepts the code.
pub fn lengths(rule: Rule, rng: &mut Rng, bytes: &mut [u8]) {
    let Ok(tree) = reader::read_by(rule, bytes) else {
        return;
    };
    let mut fields = Vec::new();
    length_fields(&tree, &mut fields);
    if rng.percent(50) && fields.iter().any(|f| f.1.is_some()) {
        fields.retain(|f| f.1.is_some());
    }
    if fields.is_empty() {
        return;
    }
    let (first, second) = rng.pick(&fields);
    let by = rng.pick(&[1, 1, u32::MAX, u32::MAX, 2, 5, 1 << 16, 1 << 31, 1 << 24]);
    match (second, rng.below(4)) {
        (Some(other), 0 | 1) => {
            let by = rng.pick(&[1, u32::MAX, 1 << 31, 1 << 16]);
            add_to_length(bytes, first, by);
            add_to_length(bytes, other, 0u32.wrapping_sub(by));
        }
        (Some(other), 2) => add_to_length(bytes, other, by),
        _ => add_to_length(bytes, first, by),
    }
}

fn add_to_length(bytes: &mut [u8], at: usize, by: u32) {
    let field: [u8; 4] = bytes[at..at + 4].try_into().expect("four bytes");
    let length = u32::from_le_bytes(field).wrapping_add(by);
    bytes[at..at + 4].copy_from_slice(&length.to_le_bytes());
}

/// Where the structures keep their lengths, an IfElse both of them.
fn length_fields(code: &Code, fields: &mut Vec<(usize, Option<usize>)>) {
    match &code.node {
        Node::Ins(_) => {}
        Node::Block(codes) => {
            fields.push((code.place + 1, None));
            for child in codes {
                length_fields(child, fields);
            }
        }
        Node::IfElse(_, yes, no) => {
            fields.push((code.place + 1, Some(code.place + 5)));
            length_fields(yes, fields);
            length_fields(no, fields);
        }
        Node::While(_, body) => {
            fields.push((code.place + 1, None));
            length_fields(body, fields);
        }
    }
}

/// Brings cells to the edge of a rule or over it. `kind` is taken around.
pub fn cells(rng: &mut Rng, cells: &mut Vec<Cell>, kind: usize) {
    if cells.is_empty() {
        let (address, value) = (rng.edge_word(), rng.edge_word());
        cells.push(Cell {
            address: address.min(1 << 63),
            tag: 64,
            value,
        });
    }
    let at = rng.below(cells.len());
    let cell = &mut cells[at];
    match kind % 8 {
        0 => cell.tag = rng.pick(&[0, 1, 4, 7, 9, 15, 24, 31, 33, 63, 65, 128, 255]),
        1 => {
            cell.tag = rng.pick(&[8, 16, 32]);
            let past = rng.pick(&[0, 1, u64::MAX, 1 << 32, 1 << 63]);
            cell.value = (1u64 << cell.tag).wrapping_add(past);
        }
        2 => crowd(rng, cells, at),
        3 => cells.swap(0, at),
        4 => to_the_top(rng, cells),
        5 => {
            cell.tag = rng.pick(&[8, 16, 32]);
            cell.value = (1 << cell.tag) - 1;
        }
        6 => {
            cell.tag = rng.pick(&[7, 8]);
            cell.value = rng.pick(&[1 << 8, 255]);
            crowd(rng, cells, at);
        }
        _ => cells.insert(at, cells[at]),
    }
}

/// Moves a cell to the end of the one before, or just into it.
fn crowd(rng: &mut Rng, cells: &mut [Cell], at: usize) {
    if at > 0 {
        let end = cells[at - 1].end() as u64;
        cells[at].address = end.wrapping_sub(rng.pick(&[0, 1, 1, 8]));
    }
}

fn to_the_top(rng: &mut Rng, cells: &mut [Cell]) {
    if let Some(last) = cells.last_mut() {
        let size = u64::from(last.tag / 8);
        last.address = 0u64
            .wrapping_sub(size)
            .wrapping_add(rng.pick(&[0, 0, 1, 1, size - 1]));
    }
}

/// A whole job's bytes cut short, made longer, or with another count.
pub fn bytes(rng: &mut Rng, turn: usize, job: &Job) -> Vec<u8> {
    let mut bytes = job.to_bytes();
    let code_at = HEAD + CELL * job.cells.len();
    let count = job.cells.len() as u16;
    match turn % 8 {
        0 => bytes.truncate(rng.pick(&[0, 1, 4, 404, 405, 406])),
        1 => bytes.truncate(rng.below(bytes.len())),
        2 => bytes.truncate(code_at - rng.pick(&[0, 1, 16, 17]).min(code_at - HEAD)),
        3 => bytes.resize(LONGEST + rng.pick(&[1, 1, 2, 802]), 0),
        4 => set_count(&mut bytes, rng.pick(&[MOST as u16 + 1, 1 << 15, u16::MAX])),
        5 => set_count(&mut bytes, count.wrapping_add(1)),
        6 => set_count(&mut bytes, count.saturating_sub(1)),
        _ => bytes.resize(code_at + reader::LONGEST + rng.pick(&[0, 1, 2]), 0),
    }
    bytes
}

fn set_count(bytes: &mut [u8], count: u16) {
    bytes[HEAD - 2..HEAD].copy_from_slice(&count.to_le_bytes());
}
