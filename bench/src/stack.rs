//! The stack that a run and a job take, over kernels that nest one kind of structure as deep as is allowed, and one
//! level deeper, which is refused.

use crate::encode::*;
use crate::kernels::{kernel, set_cells, set_regs, Kernel, FIRST_CELL};
use crate::{ends, jobs, painted};
use pokchrei::{Answer, Cells, Refusal, JOB_ROOM};

const LIMIT: usize = 32;

/// A code, one level deeper.
type Wrap = fn(Code) -> Code;

/// Bytes of stack that a call on a kernel takes.
type Measure = fn(&Kernel) -> usize;

const CALLS: [(&str, Measure); 2] = [("run", run), ("job", job)];

const SHAPES: [(&str, Wrap); 4] = [
    ("Block", |inner| block(&[inner])),
    ("IfElse, true", |inner| {
        if_else(two(0x31, counter(), constant(0)), inner, block(&[]))
    }),
    ("IfElse, false", |inner| {
        if_else(two(0x30, counter(), constant(0)), block(&[]), inner)
    }),
    ("While", |inner| {
        while_holds(two(0x31, counter(), constant(0)), inner)
    }),
];

// Operands are cells by base and index, which take most work.

/// Not 0 until the innermost codes have been run.
fn counter() -> Code {
    at_index(RBX, 8, RDI, 0)
}

fn source() -> Code {
    at_index(RSI, 8, RDI, 0)
}

fn destination() -> Code {
    at_index(RBP, 8, RDI, 0)
}

/// Each instruction once.
fn instructions() -> Vec<Code> {
    const TWO: [u8; 14] = [1, 2, 4, 5, 6, 7, 10, 11, 12, 13, 14, 0x19, 0x1a, 0x1b];
    let mut codes = TWO.map(|kind| two(kind, destination(), source())).to_vec();
    codes.push(record(0x03, &[], &[destination(), source(), source()]));
    codes.push(record(0x08, &[], &[source()]));
    codes.push(record(0x09, &[], &[destination(), destination(), source()]));
    codes.extend([0x0f, 0x10, 0x11, 0x12, 0x14].map(|kind| record(kind, &[1, 2], &[])));
    codes.extend([0x13, 0x18].map(|kind| record(kind, &[1, 2, 4], &[])));
    codes.push(record(0x15, &[1, 1], &[destination()]));
    codes.extend([0x16, 0x17].map(|kind| record(kind, &[1, 1], &[source()])));
    codes
}

fn over_cells(code: Code) -> Kernel {
    let mut kernel = kernel("stack", code);
    set_cells(&mut kernel, 4);
    for (cell, r) in [(1, RBX), (2, RSI), (3, RBP)] {
        set_regs(&mut kernel, &[(r, FIRST_CELL + 8 * cell)]);
    }
    kernel
}

/// Each instruction once, at a depth of 2 or more, in one kind of structure inside another.
fn nested(wrap: Wrap, depth: usize) -> Kernel {
    let mut codes = instructions();
    codes.push(two(0x01, counter(), constant(0)));
    let code = (2..depth).fold(block(&codes), |inner, _| wrap(inner));
    let kernel = over_cells(code);
    let too_deep = |answer| matches!(answer, Answer::Refused(Refusal { number: 5, .. }));
    match ends::proved(&kernel).answer {
        Answer::Done => assert!(depth <= LIMIT),
        answer => assert!(depth > LIMIT && too_deep(answer), "{answer:?}"),
    }
    kernel
}

fn run(kernel: &Kernel) -> usize {
    let mut state = kernel.state.clone();
    let mut values = kernel.values.clone();
    painted::depth(&mut || {
        let cells = Cells {
            addresses: &kernel.addresses,
            tags: &kernel.tags,
            values: &mut values,
        };
        pokchrei::run(&kernel.code, cells, &mut state, kernel.setting);
    })
}

fn job(kernel: &Kernel) -> usize {
    let bytes = jobs::written(kernel);
    let mut out = Box::new([0; JOB_ROOM]);
    let depth = painted::depth(&mut || {
        pokchrei::job(&bytes, &mut out);
    });
    let done = ends::proved(kernel).answer == Answer::Done;
    assert!(out.starts_with(if done { b"done" } else { b"refused 5 at" }));
    depth
}

/// A line for each call, shape and depth; at depth 1 stands the instruction that takes most.
pub fn lines() {
    let alone: Vec<Kernel> = instructions().into_iter().map(over_cells).collect();
    for (call, measure) in CALLS {
        let most = alone.iter().map(measure).max().unwrap_or(0);
        println!("stack\t{call}, one instruction\t1\t{most}\t-\t-");
        for (shape, wrap) in SHAPES {
            for depth in [LIMIT, LIMIT + 1] {
                let bytes = measure(&nested(wrap, depth));
                println!("stack\t{call}, {shape}\t{depth}\t{bytes}\t-\t-");
            }
        }
    }
}
