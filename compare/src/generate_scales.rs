//! Jobs about scales: memory that is found through an index, in code that is sound
//! or in which records have a scale that is none, alone or beside a register that
//! there is not, ahead of other trouble and behind it.

use crate::build::{block, if_else, ins, number, repeat};
use crate::damage;
use crate::generate::fork;
use crate::job::Job;
use crate::places::{records, NEXTS};
use crate::reader::{read, Rule};
use crate::rng::Rng;
use crate::scene::Scene;
use crate::settle::{settled, with_fuel};
use crate::tree::Instruction::Mov64;
use crate::tree::{Code, Ocmp, Relation};

pub fn job(rng: &mut Rng) -> Job {
    let mut scene = indexed_scene(rng);
    let size = rng.pick(&[0, 1, 2, 3, 5, 8, 20]);
    let depth = rng.pick(&[0, 1, 2, 4]);
    let mut codes = scene.codes(size, depth);
    for _ in 0..=rng.below(2) {
        let at = rng.below(codes.len() + 1);
        codes.insert(at, scene.found_by_index());
    }
    let mut job = with_fuel(rng, scene, &block(codes));
    if rng.percent(60) {
        spoil(rng, &mut job.code);
    }
    settled(Rule::Today, job)
}

/// Without a cell there would be nothing to find.
fn indexed_scene(rng: &mut Rng) -> Scene {
    let wild = rng.pick(&[0, 0, 0, 0, 0, 20]);
    let mut scene = Scene::new(Rule::Today, fork(rng), wild);
    while scene.data_cells.is_empty() {
        scene = Scene::new(Rule::Today, fork(rng), wild);
    }
    scene.memory = rng.pick(&[50, 80]);
    scene.indexed = true;
    scene
}

impl Scene {
    /// An instruction, a choice, or a loop with one round at most.
    fn found_by_index(&mut self) -> Code {
        let there = self.destination();
        match self.rng.below(3) {
            0 => self.instruction(),
            1 => if_else(self.comparison(), self.instruction(), self.instruction()),
            _ => {
                let left = Ocmp::unplaced(Relation::Ne, there, number(0));
                repeat(left, ins(Mov64(there, number(0))))
            }
        }
    }
}

/// Some of the MIndex records, if there are any, and maybe something else.
fn spoil(rng: &mut Rng, code: &mut Vec<u8>) {
    let Some(places) = index_places(rng, code) else {
        return;
    };
    // Ahead of the records: only sound code tells where the lengths are.
    if rng.percent(10) {
        damage::lengths(Rule::Today, rng, code);
    }
    for _ in 0..rng.pick(&[1, 1, 1, 2, 3]) {
        let at = rng.pick(&places);
        spoil_record(rng, &mut code[at..]);
    }
    match rng.below(20) {
        0 => code.truncate(1 + rng.below(code.len())),
        1 => code.push(rng.edge_byte()),
        _ => {}
    }
}

/// Where MIndex records stand: all of them, or those in instructions, choices or
/// tests alone, which are not equally many.
fn index_places(rng: &mut Rng, code: &[u8]) -> Option<Vec<usize>> {
    let all = records(&read(code).ok()?);
    let only = rng.pick(&[None, Some(NEXTS[0]), Some(NEXTS[1]), Some(NEXTS[2])]);
    let chosen = all
        .iter()
        .filter(|r| only.is_none_or(|next| r.next == next));
    let places = chosen.flat_map(|r| r.scales()).map(|(at, _)| at);
    let places: Vec<usize> = places.collect();
    (!places.is_empty()).then_some(places)
}

/// The fields of an MIndex, each of which may be bad.
fn spoil_record(rng: &mut Rng, record: &mut [u8]) {
    let [base, scale, index] = rng.pick(&[
        [false, true, false],
        [false, true, false],
        [false, true, false],
        [true, true, false],
        [false, true, true],
        [false, true, true],
        [true, true, true],
        [true, false, false],
        [false, false, true],
    ]);
    if base {
        record[1] = rng.pick(&[16, 17, 128, 255]);
    }
    if scale {
        record[2..4].copy_from_slice(&rng.other_scale().to_le_bytes());
    }
    if index {
        record[4] = rng.pick(&[16, 17, 128, 255]);
    }
}
