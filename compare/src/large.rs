//! Jobs at the limits of size: 1,024 cells, 16,384 bytes of code, 34,198
//! bytes in all, and one more of each.

use crate::build::block;
use crate::cells::{Cell, MOST};
use crate::job::Job;
use crate::reader::{Rule, LONGEST};
use crate::rng::Rng;
use crate::scene::Scene;
use crate::settle::{job_of, settled};
use crate::tree::Instruction::*;
use crate::tree::*;
use crate::writer::write;

pub fn bytes(rule: Rule, rng: &mut Rng, turn: usize) -> Vec<u8> {
    let (cells, length, extra) = match turn % 6 {
        0 => (MOST, LONGEST, 0),
        1 => (MOST, LONGEST, 1),
        2 => (MOST + 1, 64, 0),
        3 => (MOST - 1, LONGEST, 1),
        4 => (MOST, 2_000, 0),
        _ => (3, LONGEST, 0),
    };
    let mut job = long_job(rule, rng, cells, length);
    job.code.extend(vec![0; extra]);
    job.to_bytes()
}

fn long_job(rule: Rule, rng: &mut Rng, cells: usize, length: usize) -> Job {
    let mut scene = Scene::new(rule, Rng::new(rng.word()), 0);
    scene.memory = 3;
    scene.cells = many_cells(rng, cells);
    scene.data_cells = scene
        .cells
        .iter()
        .filter(|c| c.tag == 64)
        .map(|c| c.address)
        .collect();
    scene.amount_cells.clear();
    scene.counters.retain(|c| matches!(c, Operand::Reg(_)));
    let code = long_code(&mut scene, length);
    let fuel = rng.pick(&[20, 20, 100, 1]);
    settled(rule, job_of(scene, &code, fuel))
}

fn many_cells(rng: &mut Rng, count: usize) -> Vec<Cell> {
    let mut at = rng.pick(&[0, 4096, 1 << 40]);
    let mut cells = Vec::new();
    for _ in 0..count {
        let tag = rng.pick(&[64, 64, 64, 8, 16, 32]);
        let value = rng.edge_word() & (u64::MAX >> (64 - tag));
        cells.push(Cell {
            address: at,
            tag,
            value,
        });
        at += u64::from(tag / 8) + rng.pick(&[0, 0, 0, 1, 8]);
    }
    cells
}

/// A Block of exactly `length` bytes; the last codes only fill it up.
fn long_code(scene: &mut Scene, length: usize) -> Code {
    let room = length - 5;
    let mut codes = Vec::new();
    let mut used = 0;
    while used + 400 < room {
        let code = scene.code(4, 3);
        let size = write(&code).len();
        if used + size + 3 <= room {
            codes.push(code);
            used += size;
        }
    }
    while room - used > 5 {
        codes.push(Code::unplaced(Node::Ins(Pxor(1, 2))));
        used += 3;
    }
    let last = match room - used {
        3 => Node::Ins(Paddd(1, 2)),
        4 => Node::Ins(Pshufd(1, 2, 27)),
        _ => Node::Block(Vec::new()),
    };
    codes.push(Code::unplaced(last));
    block(codes)
}
