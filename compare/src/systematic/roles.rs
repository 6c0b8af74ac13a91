//! Every operand kind in every role of every instruction with operands; in
//! every role also memory without a 64-bit cell, in every destination Rsp.

use super::stage::*;
use crate::build::*;
use crate::job::Job;
use crate::reader::Rule;
use crate::tree::Instruction::*;
use crate::tree::*;
use Role::{Destination, Source};

#[derive(Clone, Copy, PartialEq)]
pub enum Role {
    Destination,
    Source,
}

#[derive(Clone, Copy)]
pub struct Shape {
    build: fn(&[Operand]) -> Instruction,
    pub roles: &'static [Role],
}

const TWO: &[Role] = &[Destination, Source];

fn shape(build: fn(&[Operand]) -> Instruction, roles: &'static [Role]) -> Shape {
    Shape { build, roles }
}

pub fn shapes() -> Vec<Shape> {
    vec![
        shape(|o| Mov64(o[0], o[1]), TWO),
        shape(|o| Add64(o[0], o[1]), TWO),
        shape(
            |o| AddLea64(o[0], o[1], o[2]),
            &[Destination, Source, Source],
        ),
        shape(|o| AddCarry64(o[0], o[1]), TWO),
        shape(|o| Adcx64(o[0], o[1]), TWO),
        shape(|o| Adox64(o[0], o[1]), TWO),
        shape(|o| Sub64(o[0], o[1]), TWO),
        shape(|o| Mul64(o[0]), &[Source]),
        shape(
            |o| Mulx64(o[0], o[1], o[2]),
            &[Destination, Destination, Source],
        ),
        shape(|o| IMul64(o[0], o[1]), TWO),
        shape(|o| Xor64(o[0], o[1]), TWO),
        shape(|o| And64(o[0], o[1]), TWO),
        shape(|o| Shr64(o[0], o[1]), TWO),
        shape(|o| Shl64(o[0], o[1]), TWO),
        shape(|o| Pextrq(o[0], 1, 1), &[Destination]),
        shape(|o| Pinsrd(1, o[0], 2), &[Source]),
        shape(|o| Pinsrq(1, o[0], 1), &[Source]),
        shape(|o| Popcnt64(o[0], o[1]), TWO),
        shape(|o| Lzcnt64(o[0], o[1]), TWO),
        shape(|o| Tzcnt64(o[0], o[1]), TWO),
    ]
}

/// So far behind CELL; last year through a scale that is refused today.
fn by_index(rule: Rule, behind: i64) -> Operand {
    match rule {
        Rule::Today => at_index(BASE, 2, INDEX, behind - 8192),
        Rule::LastYear => at_index(BASE, -2, INDEX, behind),
    }
}

/// An operand of each kind; the memory is a cell of 7 or the one beside it.
pub fn kinds(rule: Rule, behind: i64) -> [Operand; 5] {
    [
        number(5),
        reg(if behind == 0 { SMALL } else { TARGET }),
        at(CELL + behind as u64),
        at_reg(NEAR, 96 + behind),
        by_index(rule, behind),
    ]
}

/// Memory with no 64-bit cell there: nothing listed, a narrow cell, and, the
/// last two, an address below 0 and one above 2^64-1.
pub const BARE: [Operand; 6] = [
    Operand::Mem(Maddr::Const(BESIDE)),
    Operand::Mem(Maddr::Const(4112)),
    Operand::Mem(Maddr::Reg(NEAR, 113)),
    Operand::Mem(Maddr::Index(BASE, 2, INDEX, 19 - 8192)),
    Operand::Mem(Maddr::Reg(NEAR, -4001)),
    Operand::Mem(Maddr::Index(TARGET, 1, INDEX, 0)),
];

/// `BARE`, as the rule has it.
pub fn bare_memory(rule: Rule) -> [Operand; 6] {
    let [a, b, c, _, d, e] = BARE;
    [a, b, c, by_index(rule, 19), d, e]
}

impl Shape {
    /// The instruction with these operands, as many as there are roles.
    pub fn of(&self, operands: &[Operand]) -> Code {
        ins((self.build)(operands))
    }
}

fn usual(role: Role, position: usize) -> Operand {
    match role {
        Destination => reg(TARGET + position as u8),
        Source => reg(SMALL),
    }
}

/// The shape with its usual operands but for one.
pub fn with(shape: &Shape, position: usize, operand: Operand) -> Code {
    let mut operands: Vec<Operand> = (0..shape.roles.len())
        .map(|i| usual(shape.roles[i], i))
        .collect();
    operands[position] = operand;
    shape.of(&operands)
}

pub fn jobs(rule: Rule) -> Vec<Job> {
    let bare = bare_memory(rule);
    let mut jobs = Vec::new();
    for (turn, shape) in shapes().iter().enumerate() {
        for (position, &role) in shape.roles.iter().enumerate() {
            let behind = if role == Source { 0 } else { 8 };
            let mut tried = kinds(rule, behind).to_vec();
            tried.push(bare[(turn + position) % bare.len()]);
            if role == Destination {
                tried.push(reg(RSP));
            }
            jobs.extend(tried.into_iter().map(|o| stage(with(shape, position, o))));
        }
    }
    jobs
}
