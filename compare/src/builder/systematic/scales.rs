//! Scales that there are and others in every operand place of every instruction and
//! comparison; a bad scale behind a bad base, a bad xmm number and a bad operand, and
//! ahead of a bad index and a bad operand; and where it stands among the refusals of a
//! call.

use super::values::{head, operands, Byte, COMPARISONS, INSTRUCTIONS};
use super::{equal, scaled, xor, Scribe};
use crate::build::{at_reg, reg};
use crate::builder::calls::Call;
use crate::builder::record::{Entry, RawCall};
use crate::reader::SCALES;
use crate::tree::Operand;

const TRIED: [i16; 13] = [0, 3, -1, 7, 9, 16, 256, 32_767, -32_768, 1, 2, 4, 8];

const ROOM: usize = 60;

/// A call with a record: its function, kind and body, and number of operands.
struct Shape {
    entry: Entry,
    head: Vec<u8>,
    count: usize,
}

fn shapes() -> Vec<Shape> {
    let with_operands = INSTRUCTIONS.iter().filter(|(_, _, count)| *count > 0);
    let added = with_operands.map(|&(kind, body, count)| Shape {
        entry: Entry::Add,
        head: head(kind, body, 2),
        count,
    });
    let opened = [Entry::OpenIfElse, Entry::OpenWhile].into_iter();
    let opened = opened.flat_map(|entry| {
        COMPARISONS.map(move |kind| Shape {
            entry,
            head: vec![kind],
            count: 2,
        })
    });
    added.chain(opened).collect()
}

impl Shape {
    /// The shape over usual operands but for these.
    fn raw(&self, others: &[(usize, Operand)], scribe: &mut Scribe) -> RawCall {
        let mut operands = operands(self.count, 1, 2);
        for (i, operand) in others {
            operands[*i] = *operand;
        }
        RawCall::with(self.entry, &self.head, &operands, scribe.rng)
    }
}

pub fn lists(scribe: &mut Scribe) {
    for shape in shapes() {
        scribe.list(ROOM);
        tried(scribe, &shape);
        in_one_operand(scribe, &shape);
        in_two_operands(scribe, &shape);
    }
    behind_xmm(scribe);
    among_refusals(scribe);
}

/// Begins anew where a call was taken.
fn call(scribe: &mut Scribe, shape: &Shape, others: &[(usize, Operand)], number: u8) {
    let raw = shape.raw(others, scribe);
    assert_eq!(scribe.recorder.call(&raw, ROOM), number);
    if number == 0 {
        scribe.recorder.begin();
    }
}

fn tried(scribe: &mut Scribe, shape: &Shape) {
    for i in 0..shape.count {
        for scale in TRIED {
            let number = if SCALES.contains(&scale) { 0 } else { 7 };
            call(scribe, shape, &[(i, scaled(8, scale, 9))], number);
        }
    }
}

/// The first of base, scale and index that is bad decides.
fn in_one_operand(scribe: &mut Scribe, shape: &Shape) {
    for i in 0..shape.count {
        let table = [
            (scaled(16, 3, 0), 4),
            (scaled(15, 3, 16), 7),
            (scaled(255, -1, 255), 4),
            (scaled(15, 8, 16), 4),
        ];
        for (operand, number) in table {
            call(scribe, shape, &[(i, operand)], number);
        }
    }
}

/// The first of two operands decides, whatever the second has.
fn in_two_operands(scribe: &mut Scribe, shape: &Shape) {
    let seven = scaled(0, 9, 0);
    let fours = [reg(16), at_reg(16, 0), scaled(16, 1, 0), scaled(0, 1, 16)];
    let four = fours[usize::from(shape.head[0]) % fours.len()];
    for (i, j) in [(0, 1), (0, 2), (1, 2)] {
        if j < shape.count {
            call(scribe, shape, &[(i, four), (j, seven)], 4);
            call(scribe, shape, &[(i, seven), (j, four)], 7);
            call(scribe, shape, &[(i, seven), (j, seven)], 7);
        }
    }
}

/// The body stands ahead of the operands.
fn behind_xmm(scribe: &mut Scribe) {
    scribe.list(ROOM);
    for (kind, body, count) in INSTRUCTIONS {
        if count == 0 || !body.contains(&Byte::Xmm) {
            continue;
        }
        for (xmm, scale, number) in [(16, 3, 4), (255, 1, 4), (15, 3, 7), (15, 1, 0)] {
            let mut head = head(kind, body, 2);
            head[1] = xmm;
            let shape = Shape {
                entry: Entry::Add,
                head,
                count,
            };
            call(scribe, &shape, &[(0, scaled(15, scale, 15))], number);
        }
    }
}

/// 51 ahead of a bad scale, 53 and 52 behind it, each alone and with the others; in
/// every kind of part with and without a code, and where a build is finished.
fn among_refusals(scribe: &mut Scribe) {
    let open = [
        vec![Call::OpenBlock],
        vec![Call::OpenIfElse(equal(0, 1))],
        vec![Call::OpenIfElse(equal(0, 1)), xor(), Call::Close],
        vec![Call::OpenWhile(equal(0, 1))],
    ];
    for way in open {
        for levels in [1, 31, 32] {
            scribe.list(1_000);
            let last = &way[..1];
            (1..levels).for_each(|_| scribe.take(&way));
            scribe.take(if levels < 32 { &way } else { last });
            refused_alone(scribe, 7);
            if levels < 32 {
                scribe.take(&[xor()]);
                refused_alone(scribe, if way[0] == Call::OpenBlock { 7 } else { 51 });
            }
        }
    }
    scribe.list(ROOM);
    refused_alone(scribe, 7);
    scribe.take(&[xor()]);
    refused_alone(scribe, 51);
}

/// With everything lent, with just the build's bytes, and with nothing.
fn refused_alone(scribe: &mut Scribe, number: u8) {
    let shapes = shapes();
    let (first, last) = (&shapes[0], &shapes[shapes.len() - 1]);
    for lent in [scribe.recorder.room(), scribe.recorder.length(), 0] {
        for shape in [first, last] {
            let raw = shape.raw(&[(1, scaled(0, 3, 16))], scribe);
            assert_eq!(scribe.recorder.call(&raw, lent), number);
        }
    }
}
