//! Fuel at its edges: none, one, exact, one less, and in nested loops.

use super::stage::*;
use crate::build::*;
use crate::job::Job;
use crate::tree::Instruction::*;
use crate::tree::*;
use Relation::{Eq, Ne};

/// Rounds of the outer loop with `inner` rounds in each.
fn nested(inner: u64) -> Code {
    let set = ins(Mov64(reg(RIGHT), number(inner)));
    down(LEFT, vec![set, down(RIGHT, vec![step()])])
}

fn counted() -> Vec<Job> {
    let mut jobs = Vec::new();
    for (rounds, exact) in [(0, 1), (1, 2), (3, 4)] {
        for fuel in [0, 1, exact - 1, exact, exact + 1, u32::MAX] {
            let job = stage(down(LEFT, vec![step()]));
            jobs.push(job.reg(LEFT, rounds).fuel(fuel));
        }
    }
    jobs
}

/// The second round of the outer loop leaves its body two less than there
/// was, and the inner one needs one more than its rounds.
fn in_loops() -> Vec<Job> {
    let two = (0..=7).map(|fuel| stage(nested(3)).reg(LEFT, 2).fuel(fuel));
    let none = (0..=4).map(|fuel| stage(nested(0)).reg(LEFT, 2).fuel(fuel));
    two.chain(none).collect()
}

fn others() -> Vec<Job> {
    let never = compare(Ne, reg(LEFT), reg(LEFT));
    let always = compare(Eq, reg(LEFT), reg(LEFT));
    let idle = repeat(never.clone(), step());
    let endless = repeat(always.clone(), block(Vec::new()));
    let bare = compare(Eq, at(BESIDE), reg(LEFT));
    let one = |counter| down(counter, vec![step()]);
    let codes = [
        (idle.clone(), 0),
        (block(vec![step(), idle.clone()]), 0),
        (block(vec![step(), idle.clone()]), 1),
        (if_else(always.clone(), step(), idle.clone()), 0),
        (if_else(never, step(), idle.clone()), 0),
        (repeat(bare.clone(), step()), 0),
        (repeat(bare, step()), 1),
        (endless.clone(), 1),
        (endless.clone(), 7),
        (block(vec![one(LEFT), one(RIGHT)]), 2),
        (block(vec![one(LEFT), one(RIGHT)]), 1),
        (block(vec![one(LEFT), endless]), 2),
        (repeat(always.clone(), idle.clone()), 1),
        (repeat(always.clone(), idle), 2),
        (repeat(always, ins(Shl64(reg(TARGET), number(64)))), 1),
    ];
    let staged = codes.into_iter().map(|(code, fuel)| stage(code).fuel(fuel));
    staged.map(|job| job.reg(LEFT, 1).reg(RIGHT, 1)).collect()
}

pub fn jobs() -> Vec<Job> {
    let mut jobs = counted();
    jobs.extend(in_loops());
    jobs.extend(others());
    jobs
}
