//! Builds that no call left, each with every call, with much lent and little.

use super::{bad, sound, Scribe};

/// What a build says: length, depth, and of the innermost open part its kind,
/// field and start.
type Said = (u16, u16, u8, u16, u16);

const LARGE: usize = 65_550;
const SMALL: usize = 40;

/// A part that a call could have left, then one thing about it changed.
const SAID: [Said; 40] = [
    // depth
    (20, 33, 0, 1, 5),
    (20, 34, 1, 1, 20),
    (20, 255, 2, 1, 20),
    (20, 256, 0, 1, 5),
    (20, 257, 0, 1, 5),
    (20, 65_535, 0, 1, 5),
    (20, 32, 0, 1, 5),
    (20, 32, 1, 1, 20),
    (20, 32, 2, 1, 5),
    // the kind of part
    (20, 1, 3, 1, 5),
    (20, 1, 3, 1, 20),
    (20, 1, 4, 1, 20),
    (20, 2, 128, 1, 20),
    (20, 2, 255, 1, 5),
    // the field, which ends where the part begins at the latest
    (20, 1, 0, 16, 20),
    (20, 1, 0, 17, 20),
    (20, 1, 1, 17, 20),
    (20, 1, 2, 20, 20),
    (20, 3, 0, 65_535, 20),
    (20, 3, 1, 65_532, 20),
    (65_535, 3, 0, 65_531, 65_535),
    (65_535, 3, 0, 65_532, 65_535),
    // the start
    (20, 1, 0, 1, 21),
    (20, 1, 1, 1, 21),
    (20, 1, 2, 1, 65_535),
    (20, 1, 1, 0, 4),
    (20, 1, 2, 0, 20),
    (0, 1, 0, 0, 0),
    (4, 1, 2, 0, 4),
    // the length
    (16_380, 1, 0, 1, 5),
    (16_384, 1, 0, 1, 5),
    (16_384, 1, 1, 16_380, 16_384),
    (16_385, 1, 0, 1, 5),
    (16_385, 1, 2, 1, 5),
    (65_535, 1, 0, 1, 5),
    (65_535, 2, 1, 1, 65_535),
    (41, 1, 0, 1, 5),
    // nothing is open
    (0, 0, 1, 1, 5),
    (1, 0, 0, 1, 5),
    (65_535, 0, 2, 1, 5),
];

pub fn lists(scribe: &mut Scribe) {
    for said in SAID {
        scribe.list(LARGE);
        damage(scribe, said);
        scribe.no_value();
        for lent in [LARGE, SMALL] {
            let calls = sound().into_iter().chain(bad().map(|(call, _)| call));
            for call in calls {
                damage(scribe, said);
                scribe.lend(&call, lent);
            }
        }
    }
}

fn damage(scribe: &mut Scribe, (length, depth, part, field, start): Said) {
    scribe.recorder.damage(|build, _| {
        (build.length, build.depth) = (length, depth);
        let at = usize::from(depth.clamp(1, 32)) - 1;
        (build.parts[at], build.fields[at], build.starts[at]) = (part, field, start);
    });
}
