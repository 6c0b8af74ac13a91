//! Codes nested about as deep as they may be, with something to trip over at
//! the bottom; and single records spoiled inside parts of the right length.

use crate::damage::number_places;
use crate::job::Job;
use crate::reader::{Rule, DEEPEST};
use crate::rng::Rng;
use crate::scene::Scene;
use crate::state::Start;
use crate::writer::write;

pub fn job(rng: &mut Rng, turn: usize) -> Job {
    let (mut code, own_levels) = innermost(rng, turn / 4);
    let depth = DEEPEST - 1 + turn % 4;
    let style = rng.below(5);
    for _ in own_levels..depth {
        code = wrapped(rng, code, style);
    }
    if rng.percent(10) {
        code.push(0x20);
    }
    bare_job(rng, code)
}

fn bare_job(rng: &mut Rng, code: Vec<u8>) -> Job {
    let mut regs = [0; 16];
    regs[1] = rng.edge_word();
    Job {
        fuel: rng.pick(&[0, 1, 2, 31, 32, 33, 40]),
        fill: rng.flags_word(),
        start: Start {
            flags: rng.flags_word(),
            regs,
            xmms: [[0; 4]; 16],
        },
        cells: Vec::new(),
        code,
    }
}

/// One code with numbers out of range, cut short or followed by more, in
/// parts that end just where it does or one byte off.
pub fn fragment(rule: Rule, rng: &mut Rng) -> Job {
    let mut scene = Scene::new(rule, Rng::new(rng.word()), 0);
    let size = rng.pick(&[1, 1, 1, 1, 2, 3]);
    let mut code = write(&scene.code(size, 2));
    spoil(rng, &mut code);
    for _ in 0..rng.below(4) {
        code = wrapped(rng, code, 3);
        if rng.percent(10) {
            code[1] = code[1].wrapping_add(rng.pick(&[1, 255]));
        }
    }
    bare_job(rng, code)
}

fn spoil(rng: &mut Rng, code: &mut Vec<u8>) {
    let mut places = number_places(code);
    if places.is_empty() || rng.percent(50) {
        places = (1..code.len()).filter(|&i| code[i] <= 15).collect();
    }
    let at = match places[..] {
        [] => 0,
        _ => rng.pick(&places),
    };
    let raised = at > 0 && rng.percent(60);
    if raised {
        code[at] = rng.pick(&[16, 17, 127, 255]);
    }
    match rng.below(10) {
        0..=2 if raised => code.truncate(at + 1),
        3..=6 => code.truncate(1 + rng.below(code.len())),
        7 => code.push(rng.edge_byte()),
        _ => {}
    }
}

/// Bytes for the bottom, and how many levels of code they try to be.
fn innermost(rng: &mut Rng, turn: usize) -> (Vec<u8>, usize) {
    match turn % 8 {
        0 => (vec![0x02, 0x41, 0x00, 0x41, 0x01], 1),
        1 => (vec![0x20, 0, 0, 0, 0], 1),
        2 => (Vec::new(), 1),
        3 => (
            vec![rng.pick(&[0x00, 0x1c, 0x1f, 0x23, 0x30, 0x40, 0xff])],
            1,
        ),
        4 => (vec![0x20, 0, 0, 0], 1),
        5 => (vec![0x10, 16, 16], 1),
        6 => (vec![0x20, 5, 0, 0, 0, 0x01, 0x41, 0x02, 0x41, 0x01], 2),
        _ => (vec![0x0f, 1, 2, 0x0f, 1, 2], 1),
    }
}

/// One more structure around a code, of the style's kind or of any.
fn wrapped(rng: &mut Rng, inner: Vec<u8>, style: usize) -> Vec<u8> {
    let length = (inner.len() as u32).to_le_bytes();
    let kind = if style < 3 {
        style
    } else {
        rng.below(4).min(2)
    };
    let mut out = vec![0x20 + kind as u8];
    out.extend(length);
    match kind {
        0 => out.extend(inner),
        1 => {
            out.extend([3, 0, 0, 0]);
            out.extend(compared(rng));
            out.extend(inner);
            out.extend([0x0f, 1, 2]);
        }
        _ => {
            out.extend(compared(rng));
            out.extend(inner);
        }
    }
    out
}

/// A comparison of Rax, which is 0 at first, with Rax or Rbx.
fn compared(rng: &mut Rng) -> [u8; 5] {
    [0x30 + rng.below(6) as u8, 0x41, 0, 0x41, rng.pick(&[0, 1])]
}
