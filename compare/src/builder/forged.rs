//! A build as the C interface shows it, and the rule for calls over its
//! fields alone. The rule is for builds that no call left; the others are the
//! business of `model.rs`.

use super::calls::Call;
use crate::reader::{DEEPEST, LONGEST};
use crate::writer::{push_comparison, write_instruction};

/// Bytes so far, and of each open part, outermost first: its kind, the place
/// of the length that counts it, and where it begins.
#[derive(Clone, Debug, Default, PartialEq, Eq)]
pub struct Build {
    pub length: u16,
    pub depth: u16,
    pub parts: [u8; 32],
    pub fields: [u16; 32],
    pub starts: [u16; 32],
}

const BLOCK: u8 = 0;
const TRUE: u8 = 1;
const LAST: u8 = 2;

/// Answers the call, and does it where the answer is 0.
pub fn call(build: &mut Build, buffer: &mut [u8], call: &Call) -> u8 {
    let answer = judge(build, buffer.len(), call);
    if answer == 0 {
        match opening(call) {
            _ if !call.adds() => close(build, buffer),
            Some(kind) => open(build, buffer, call, kind),
            None => append(build, buffer, call),
        }
    }
    answer
}

fn judge(build: &Build, lent: usize, call: &Call) -> u8 {
    let bytes = usize::from(build.length) + bytes(call).len();
    if !fits(build, call) {
        51
    } else if let Some(trouble) = call.bad_field() {
        trouble.number
    } else if call.adds() && usize::from(build.depth) == DEEPEST {
        53
    } else if bytes > lent.min(LONGEST) {
        52
    } else {
        0
    }
}

fn fits(build: &Build, call: &Call) -> bool {
    let depth = usize::from(build.depth);
    if depth == 0 {
        return call.adds() && build.length == 0;
    }
    if depth > DEEPEST {
        return false;
    }
    let (start, length) = (build.starts[depth - 1], build.length);
    let field_end = u32::from(build.fields[depth - 1]) + 4;
    if field_end > u32::from(start) || start > length {
        return false;
    }
    match build.parts[depth - 1] {
        BLOCK => true,
        TRUE | LAST => (start == length) == call.adds(),
        _ => false,
    }
}

/// The kind of the part that a call opens.
fn opening(call: &Call) -> Option<u8> {
    match call {
        Call::OpenBlock => Some(BLOCK),
        Call::OpenIfElse(_) => Some(TRUE),
        Call::OpenWhile(_) => Some(LAST),
        Call::Add(_) | Call::Close => None,
    }
}

fn bytes(call: &Call) -> Vec<u8> {
    let structure = |kind: u8, lengths: usize| {
        let mut out = vec![0; 1 + lengths];
        out[0] = kind;
        out
    };
    match call {
        Call::OpenBlock => structure(0x20, 4),
        Call::OpenIfElse(comparison) => {
            let mut out = structure(0x21, 8);
            push_comparison(&mut out, comparison);
            out
        }
        Call::OpenWhile(comparison) => {
            let mut out = structure(0x22, 4);
            push_comparison(&mut out, comparison);
            out
        }
        Call::Add(instruction) => write_instruction(instruction),
        Call::Close => Vec::new(),
    }
}

fn append(build: &mut Build, buffer: &mut [u8], call: &Call) {
    let bytes = bytes(call);
    let from = usize::from(build.length);
    buffer[from..from + bytes.len()].copy_from_slice(&bytes);
    build.length += bytes.len() as u16;
}

fn open(build: &mut Build, buffer: &mut [u8], call: &Call, kind: u8) {
    let at = usize::from(build.depth);
    build.parts[at] = kind;
    build.fields[at] = build.length + 1;
    append(build, buffer, call);
    build.starts[at] = build.length;
    build.depth += 1;
}

fn close(build: &mut Build, buffer: &mut [u8]) {
    let at = usize::from(build.depth) - 1;
    let counted = u32::from(build.length - build.starts[at]);
    let field = usize::from(build.fields[at]);
    buffer[field..field + 4].copy_from_slice(&counted.to_le_bytes());
    if build.parts[at] == TRUE {
        build.parts[at] = LAST;
        build.fields[at] += 4;
        build.starts[at] = build.length;
    } else {
        build.depth -= 1;
    }
}
