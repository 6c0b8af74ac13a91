//! Lists of calls from a seed. A list depends on the seed and its index
//! alone; the families take turns, so that every answer comes up early.

use super::calls::{of_tree, Call};
use super::maker::{List, Maker, Step};
use super::values::Values;
use crate::reader::LONGEST;
use crate::rng::Rng;
use crate::tree::Code;
use crate::tree::Instruction::*;
use crate::writer::write;

const FAMILIES: u64 = 20;

/// Keeps these lists apart from the jobs of the same seed.
const SALT: u64 = 0x6275_696c_6421;

pub fn list(seed: u64, index: u64) -> List {
    let rng = Rng::of_job(seed ^ SALT, index);
    let turn = (index / FAMILIES) as usize;
    match index % FAMILIES {
        0..=2 => tree_walk(rng, 0),
        3..=6 => tree_walk(rng, 40),
        7 | 8 => by_chance(rng),
        9 | 10 => spine_walk(rng, turn),
        11 | 12 => climbed(rng, turn),
        13 => every_room(rng),
        14 => several(rng),
        15 if turn % 5 == 2 => long(rng, turn / 5),
        15 => tight(rng),
        16 => full_of_records(rng),
        _ => damaged(rng),
    }
}

fn small_tree(rng: &mut Rng) -> Code {
    let size = rng.pick(&[1, 2, 3, 5, 8, 12, 20]);
    let depth = rng.pick(&[1, 2, 3, 4, 6, 9]);
    Values::new(rng, 0).tree(size, depth)
}

/// More room than a code needs, sometimes more than a code may need or a
/// 16-bit number can tell.
fn ample(rng: &mut Rng, need: usize) -> usize {
    let wide = [LONGEST, LONGEST + 1, 65_535, 65_536, 65_537];
    match rng.below(60) {
        0 => rng.pick(&wide).max(need),
        _ => need + rng.pick(&[0, 1, 2, 40, 100]),
    }
}

/// A few calls more, which a finished build refuses.
fn afterwards(maker: &mut Maker) {
    for _ in 0..maker.rng.below(4) {
        maker.chance_call(10);
    }
}

fn tree_walk(mut rng: Rng, noise: usize) -> List {
    let tree = small_tree(&mut rng);
    let room = ample(&mut rng, write(&tree).len());
    let mut maker = Maker::new(rng, room);
    maker.walk(&of_tree(&tree), noise);
    afterwards(&mut maker);
    maker.list()
}

fn by_chance(mut rng: Rng) -> List {
    let room = rng.pick(&[0, 1, 4, 5, 40, 200, 400, 1_000]);
    let bad = rng.pick(&[0, 2, 10]);
    let mut maker = Maker::new(rng, room);
    for _ in 0..60 {
        maker.chance_call(bad);
        if maker.is_finished() && maker.rng.percent(60) {
            maker.begin();
        }
    }
    maker.list()
}

/// A code of 30 to 33 levels; at 33 the walk cannot be gone to its end.
fn spine_walk(mut rng: Rng, turn: usize) -> List {
    let tree = Values::new(&mut rng, 0).spine(30 + turn % 4);
    let room = ample(&mut rng, write(&tree).len());
    let noise = rng.pick(&[0, 20]);
    let mut maker = Maker::new(rng, room);
    maker.walk(&of_tree(&tree), noise);
    maker.finish(0);
    afterwards(&mut maker);
    maker.list()
}

fn climbed(mut rng: Rng, turn: usize) -> List {
    let room = rng.pick(&[1_000, 4_000]);
    let mut maker = Maker::new(rng, room);
    maker.climb(29 + turn % 5, true);
    for _ in 0..12 {
        maker.chance_call(15);
    }
    maker.finish(30);
    afterwards(&mut maker);
    maker.list()
}

/// The same walk over with every length lent, from nothing to one more than
/// the need.
fn every_room(mut rng: Rng) -> List {
    let size = rng.pick(&[1, 2, 3, 4]);
    let tree = Values::new(&mut rng, 0).tree(size, 4);
    let calls = of_tree(&tree);
    let room = write(&tree).len() + 1;
    let mut maker = Maker::new(rng, room);
    for lent in 0..=room {
        maker.begin();
        for call in &calls {
            maker.call(call, lent);
        }
    }
    maker.list()
}

/// Builds one after the other in one buffer, finished or given up.
fn several(mut rng: Rng) -> List {
    let trees: Vec<Code> = (0..4).map(|_| small_tree(&mut rng)).collect();
    let need = trees.iter().map(|tree| write(tree).len()).max();
    let mut maker = Maker::new(rng, need.unwrap_or(0));
    for tree in &trees {
        let calls = of_tree(tree);
        let front = maker.rng.below(calls.len() + 1);
        let whole = maker.rng.percent(50);
        maker.walk(&calls[..if whole { calls.len() } else { front }], 10);
        maker.begin();
    }
    maker.list()
}

/// A walk with a few bytes too little or just enough.
fn tight(mut rng: Rng) -> List {
    let tree = small_tree(&mut rng);
    let need = write(&tree).len();
    let room = need.saturating_sub(rng.pick(&[0, 1, 1, 2, 3, 4, 5, 10]));
    let mut maker = Maker::new(rng, room);
    maker.walk(&of_tree(&tree), 10);
    maker.finish(20);
    afterwards(&mut maker);
    maker.list()
}

/// Up to 16,384 bytes, one less, or one more if the limit or the room let it.
fn long(rng: Rng, turn: usize) -> List {
    let (room, target) = match turn % 5 {
        0 => (LONGEST, LONGEST),
        1 => (LONGEST + 9, LONGEST + 1),
        2 => (LONGEST - 1, LONGEST),
        3 => (65_536, LONGEST),
        _ => (LONGEST + 1, LONGEST - 1),
    };
    let mut maker = Maker::new(rng, room);
    let levels = maker.rng.below(4);
    maker.climb(levels, false);
    maker.call(&Call::OpenBlock, room);
    fill(&mut maker, target);
    for _ in 0..6 {
        maker.noise();
    }
    maker.finish(10);
    afterwards(&mut maker);
    maker.list()
}

/// Instructions up to just that length: what 40 bytes at a time leave is made
/// up of threes and fours.
fn fill(maker: &mut Maker, target: usize) {
    while maker.model.length() + 60 < target {
        let long = Values::new(&mut maker.rng, 0).longest_instruction();
        maker.call(&Call::Add(long), maker.room);
    }
    let mut left = target - maker.model.length();
    while left >= 3 {
        let (last, size) = match left % 3 {
            0 => (Pxor(1, 15), 3),
            _ => (Pshufd(15, 1, 27), 4),
        };
        maker.call(&Call::Add(last), maker.room);
        left -= size;
    }
}

/// Records of any content, in an open Block so that those taken go on.
fn full_of_records(rng: Rng) -> List {
    let mut maker = Maker::new(rng, 600);
    maker.call(&Call::OpenBlock, 600);
    for _ in 0..30 {
        maker.any_record();
    }
    maker.finish(10);
    maker.list()
}

/// Part of a build, then calls over builds that none of them left.
fn damaged(mut rng: Rng) -> List {
    let room = rng.pick(&[60, 300, 300, 300, LONGEST + 5, 65_540]);
    let tree = small_tree(&mut rng);
    let calls = of_tree(&tree);
    let mut maker = Maker::new(rng, room);
    let front = maker.rng.below(calls.len() + 1);
    maker.walk(&calls[..front], 0);
    for _ in 0..8 {
        let seed = maker.rng.word();
        maker.steps.push(Step::Damage(seed));
        for _ in 0..1 + maker.rng.below(3) {
            maker.blind_call();
        }
    }
    maker.begin();
    maker.walk(&calls, 0);
    maker.list()
}
