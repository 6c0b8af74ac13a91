//! The builder's calls as values, and a tree as the calls that build it.

use crate::build::{block, ins, repeat};
use crate::reader::{read, Trouble};
use crate::tree::*;
use crate::writer::write;

#[derive(Clone, Debug, PartialEq, Eq)]
pub enum Call {
    OpenBlock,
    OpenIfElse(Ocmp),
    OpenWhile(Ocmp),
    Add(Instruction),
    Close,
}

impl Call {
    /// Every call but a close adds a code.
    pub fn adds(&self) -> bool {
        *self != Call::Close
    }

    /// The record standing alone, or as the comparison of a While.
    pub fn alone(&self) -> Option<Vec<u8>> {
        let code = match self {
            Call::OpenBlock | Call::Close => return None,
            Call::OpenIfElse(c) | Call::OpenWhile(c) => repeat(c.clone(), block(Vec::new())),
            Call::Add(instruction) => ins(*instruction),
        };
        Some(write(&code))
    }

    /// Refusals 4 and 7 are the reader's, so it is asked: whichever it meets first
    /// in the record, with the place there. Nothing else can be wrong with a value.
    pub fn bad_field(&self) -> Option<Trouble> {
        read(&self.alone()?).err()
    }
}

/// The calls that build a tree, in their order.
pub fn of_tree(code: &Code) -> Vec<Call> {
    let mut calls = Vec::new();
    push_code(code, &mut calls);
    calls
}

fn push_code(code: &Code, calls: &mut Vec<Call>) {
    match &code.node {
        Node::Ins(instruction) => calls.push(Call::Add(*instruction)),
        Node::Block(codes) => {
            calls.push(Call::OpenBlock);
            push_part(codes, calls);
        }
        Node::IfElse(condition, if_true, if_false) => {
            calls.push(Call::OpenIfElse(anywhere(condition)));
            push_part(std::slice::from_ref(if_true), calls);
            push_part(std::slice::from_ref(if_false), calls);
        }
        Node::While(condition, body) => {
            calls.push(Call::OpenWhile(anywhere(condition)));
            push_part(std::slice::from_ref(body), calls);
        }
    }
}

fn push_part(codes: &[Code], calls: &mut Vec<Call>) {
    for code in codes {
        push_code(code, calls);
    }
    calls.push(Call::Close);
}

/// A call's comparison has no place, the reader's has one.
fn anywhere(ocmp: &Ocmp) -> Ocmp {
    Ocmp::unplaced(ocmp.relation, ocmp.left, ocmp.right)
}
