//! Damage to a build between two calls: one field set to an edge, all of them
//! put about each other anew, or bytes of the buffer changed.

use super::forged::Build;
use crate::reader::LONGEST;
use crate::rng::Rng;

pub fn damage(build: &mut Build, buffer: &mut [u8], rng: &mut Rng) {
    let forged = rng.percent(70);
    if forged {
        forge(build, buffer.len(), rng);
    }
    if rng.percent(10) {
        let at = rng.below(buffer.len());
        buffer[at] = rng.edge_byte();
    }
    let touches: &[usize] = if forged {
        &[0, 0, 0, 1]
    } else {
        &[0, 1, 1, 2, 3]
    };
    for _ in 0..rng.pick(touches) {
        touch(build, buffer.len(), rng);
    }
}

/// A build that could have come from calls as far as one looks at the
/// innermost part only.
fn forge(build: &mut Build, room: usize, rng: &mut Rng) {
    let depth = rng.pick(&[1, 2, 3, 16, 31, 32, 32]);
    let inner = depth - 1;
    let top = room.min(LONGEST) as u16;
    let field = match rng.below(3) {
        0 => rng.below(40) as u16,
        1 => top.saturating_sub(rng.pick(&[4, 5, 8, 20, 60])),
        _ => 0,
    };
    let start = field.saturating_add(rng.pick(&[4, 4, 4, 3, 5, 8, 20]));
    build.depth = depth as u16;
    build.parts[inner] = rng.below(3) as u8;
    build.fields[inner] = field;
    build.starts[inner] = start;
    build.length = start.saturating_add(rng.pick(&[0, 0, 0, 1, 3, 5, 30]));
}

fn touch(build: &mut Build, room: usize, rng: &mut Rng) {
    let inner = usize::from(build.depth.clamp(1, 32)) - 1;
    let index = if rng.percent(80) {
        inner
    } else {
        rng.below(32)
    };
    let value = near(build, inner, room, rng);
    match rng.below(9) {
        0 | 1 => build.length = value,
        2 => build.depth = rng.pick(&[0, 1, 2, 31, 32, 33, 34, 255, 256, 257, 65_535]),
        3 => build.depth = build.depth.wrapping_add(rng.pick(&[1, 65_535])),
        4 => build.parts[index] = rng.pick(&[0, 1, 2, 3, 4, 128, 254, 255]),
        5 | 6 => build.fields[index] = value,
        _ => build.starts[index] = value,
    }
}

/// A number at or beside one that a field may have to do with.
fn near(build: &Build, inner: usize, room: usize, rng: &mut Rng) -> u16 {
    let anchors = [
        build.length,
        build.starts[inner],
        build.fields[inner],
        room.min(65_535) as u16,
        LONGEST as u16,
        0,
        u16::MAX,
    ];
    let beside: [i16; 11] = [0, 0, 0, 1, -1, 3, -3, 4, -4, 5, -5];
    rng.pick(&anchors).wrapping_add_signed(rng.pick(&beside))
}
