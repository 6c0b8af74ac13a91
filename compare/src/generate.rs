//! Jobs from a seed. A job depends on the seed and its index alone; the index
//! also chooses the family, so that every answer and number comes up early.

use crate::build::block;
use crate::damage;
use crate::generate_scales;
use crate::generate_sums;
use crate::generate_watch;
use crate::job::Job;
use crate::large;
use crate::nest;
use crate::reader::Rule;
use crate::rng::Rng;
use crate::scene::Scene;
use crate::settle::{job_of, settled, settled_bytes, with_fuel};
use crate::sweep;
use crate::terms::Evaluation;
use crate::tree::Instruction::*;
use crate::tree::*;

const FAMILIES: u64 = 40;

/// The bytes of a batch's job number `index`: those of `job_bytes` by today's rule,
/// but that some families are about sums, open flags or scales, and that a run on the
/// board ends soon enough too. Sets that were stored before there was a board are
/// chosen from `job_bytes` by last year's rule, so those stay as they are.
pub fn batch_bytes(seed: u64, index: u64) -> Vec<u8> {
    let bytes = match index % FAMILIES {
        0 | 4 | 8 | 12 | 16 => generate_scales::job(&mut Rng::of_job(seed, index)).to_bytes(),
        1 | 5 | 9 | 13 | 17 => generate_watch::job(&mut Rng::of_job(seed, index)).to_bytes(),
        3 | 7 | 11 | 15 | 19 => generate_sums::job(&mut Rng::of_job(seed, index)).to_bytes(),
        _ => job_bytes(Rule::Today, seed, index),
    };
    settled_bytes(Rule::Today, Evaluation::Board, bytes)
}

/// The bytes of job number `index`, drawn by a rule: by last year's, its scales are
/// any, and the job is what it was then.
pub fn job_bytes(rule: Rule, seed: u64, index: u64) -> Vec<u8> {
    let mut rng = Rng::of_job(seed, index);
    let turn = (index / FAMILIES) as usize;
    match index % FAMILIES {
        23..=25 => legal(rule, &mut rng, &[10, 30, 60, 100]).to_bytes(),
        26 | 27 => damaged(rule, &mut rng, true, false).to_bytes(),
        28 => lengths_off(rule, &mut rng).to_bytes(),
        21 => missing(rule, &mut rng, turn).to_bytes(),
        22 | 29 | 33 => settled(rule, nest::fragment(rule, &mut rng)).to_bytes(),
        30 | 31 => settled(rule, sweep::job(rule, &mut rng, index)).to_bytes(),
        32 => cells_at_edges(rule, &mut rng, turn).to_bytes(),
        34 => bytes_off(rule, &mut rng, turn),
        35 => settled(rule, nest::job(&mut rng, turn)).to_bytes(),
        36 => endless(rule, &mut rng).to_bytes(),
        37 => faulting(rule, &mut rng, turn).to_bytes(),
        38 => damaged(rule, &mut rng, turn & 1 == 0, true).to_bytes(),
        39 if turn % 10 == 3 => large::bytes(rule, &mut rng, turn / 10),
        _ => base(rule, &mut rng).to_bytes(),
    }
}

pub fn fork(rng: &mut Rng) -> Rng {
    Rng::new(rng.word())
}

/// A legal job that mostly runs to its end.
fn base(rule: Rule, rng: &mut Rng) -> Job {
    legal(rule, rng, &[0, 0, 0, 0, 0, 2, 10, 40])
}

/// A legal job; the fuel stands at, below or above what it needs. `wild` is
/// what the share of wild choices is drawn from.
fn legal(rule: Rule, rng: &mut Rng, wild: &[usize]) -> Job {
    let wild = rng.pick(wild);
    let mut scene = Scene::new(rule, fork(rng), wild);
    let size = rng.pick(&[1, 2, 4, 8, 16, 24, 40, 60, 90]);
    let depth = rng.pick(&[0, 1, 2, 3, 4, 6, 9]);
    let code = if rng.percent(15) {
        scene.code(size, depth)
    } else {
        block(scene.codes(size, depth))
    };
    with_fuel(rng, scene, &code)
}

fn damaged(rule: Rule, rng: &mut Rng, code: bool, cells: bool) -> Job {
    let mut job = base(rule, rng);
    if code {
        damage::code(rule, rng, &mut job.code);
    }
    if cells {
        let kind = rng.below(8);
        damage::cells(rng, &mut job.cells, kind);
    }
    settled(rule, job)
}

fn lengths_off(rule: Rule, rng: &mut Rng) -> Job {
    let mut job = base(rule, rng);
    damage::lengths(rule, rng, &mut job.code);
    settled(rule, job)
}

fn cells_at_edges(rule: Rule, rng: &mut Rng, turn: usize) -> Job {
    let mut job = base(rule, rng);
    damage::cells(rng, &mut job.cells, turn);
    settled(rule, job)
}

fn bytes_off(rule: Rule, rng: &mut Rng, turn: usize) -> Vec<u8> {
    let job = base(rule, rng);
    settled_bytes(rule, Evaluation::Base, damage::bytes(rng, turn, &job))
}

fn endless(rule: Rule, rng: &mut Rng) -> Job {
    let wild = rng.pick(&[0, 0, 20]);
    let mut scene = Scene::new(rule, fork(rng), wild);
    let mut codes = scene.codes(3, 2);
    let inner = rng.below(3);
    for _ in 0..=inner {
        let size = 1 + rng.below(4);
        codes.push(scene.endless_loop(size, 3));
    }
    codes.extend(scene.codes(2, 1));
    let fuel = rng.below(16) as u32;
    settled(rule, job_of(scene, &block(codes), fuel))
}

/// Code that runs for a while and then meets one chosen fault.
fn faulting(rule: Rule, rng: &mut Rng, turn: usize) -> Job {
    around(rule, rng, |scene| {
        Code::unplaced(Node::Ins(fault(scene, turn)))
    })
}

fn missing(rule: Rule, rng: &mut Rng, turn: usize) -> Job {
    around(rule, rng, |scene| scene.miss(turn))
}

/// Sound code, then what is to be met, then some more.
fn around(rule: Rule, rng: &mut Rng, met: impl Fn(&mut Scene) -> Code) -> Job {
    let mut scene = Scene::new(rule, fork(rng), 0);
    let size = rng.below(10);
    let mut codes = scene.codes(size, 3);
    codes.push(met(&mut scene));
    codes.extend(scene.codes(3, 1));
    with_fuel(rng, scene, &block(codes))
}

fn fault(scene: &mut Scene, turn: usize) -> Instruction {
    let (dst, src) = (scene.destination(), scene.source());
    let high = scene.rng.pick(&[64, 65, 1 << 32, u64::MAX]);
    let nowhere = Operand::Mem(scene.address_of(-1 - i128::from(high % 3)));
    match (turn % 5, turn / 5 % 4) {
        (0, 0) => Shl64(dst, nowhere),
        (0, 1) => AddLea64(dst, src, nowhere),
        (0, 2) => Add64(Operand::Const(1), nowhere),
        (0, _) => scene.rng.pick(&COUNTS)(Operand::Const(1), nowhere),
        (1, 0) => Mulx64(nowhere, dst, src),
        (1, 1) => Sub64(Operand::Reg(RSP), src),
        (1, 2) => Pextrq(Operand::Const(high), 1, 1),
        (1, _) => scene.rng.pick(&COUNTS)(nowhere, src),
        (2, 0) => Shl64(Operand::Const(0), Operand::Const(high)),
        (2, _) => Shr64(dst, Operand::Const(high)),
        (3, 0) => Pslld(2, 32),
        (3, _) => Psrld(2, 32),
        (_, 0) => Vpslldq(1, 2, 5),
        (_, _) => Vpslldq(1, 1, 3),
    }
}
