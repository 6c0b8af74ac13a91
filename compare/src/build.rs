//! Jobs written by hand, field by field.

use crate::cells::Cell;
use crate::job::Job;
use crate::state::{Quad, Start};
use crate::tree::*;
use crate::writer::write;

/// A job over nothing but zeros.
pub fn plain(instruction: Instruction) -> Job {
    of_code(Code::unplaced(Node::Ins(instruction)))
}

pub fn of_code(code: Code) -> Job {
    Job {
        fuel: 0,
        fill: 0,
        start: Start {
            flags: 0,
            regs: [0; 16],
            xmms: [[0; 4]; 16],
        },
        cells: Vec::new(),
        code: write(&code),
    }
}

impl Job {
    pub fn reg(mut self, reg: Reg, value: u64) -> Job {
        self.start.regs[usize::from(reg)] = value;
        self
    }

    pub fn xmm(mut self, xmm: Xmm, value: Quad) -> Job {
        self.start.xmms[usize::from(xmm)] = value;
        self
    }

    pub fn flags(mut self, flags: u64) -> Job {
        self.start.flags = flags;
        self
    }

    pub fn fill(mut self, fill: u64) -> Job {
        self.fill = fill;
        self
    }

    pub fn fuel(mut self, fuel: u32) -> Job {
        self.fuel = fuel;
        self
    }

    pub fn cell(mut self, address: u64, tag: u8, value: u64) -> Job {
        self.cells.push(Cell {
            address,
            tag,
            value,
        });
        self
    }
}

pub fn number(n: u64) -> Operand {
    Operand::Const(n)
}

pub fn reg(r: Reg) -> Operand {
    Operand::Reg(r)
}

pub fn at(address: u64) -> Operand {
    Operand::Mem(Maddr::Const(address))
}

pub fn at_reg(r: Reg, offset: i64) -> Operand {
    Operand::Mem(Maddr::Reg(r, offset))
}

pub fn at_index(base: Reg, scale: i16, index: Reg, offset: i64) -> Operand {
    Operand::Mem(Maddr::Index(base, scale, index, offset))
}

pub fn ins(instruction: Instruction) -> Code {
    Code::unplaced(Node::Ins(instruction))
}

pub fn block(codes: Vec<Code>) -> Code {
    Code::unplaced(Node::Block(codes))
}

pub fn if_else(condition: Ocmp, if_true: Code, if_false: Code) -> Code {
    Code::unplaced(Node::IfElse(
        condition,
        Box::new(if_true),
        Box::new(if_false),
    ))
}

pub fn repeat(condition: Ocmp, body: Code) -> Code {
    Code::unplaced(Node::While(condition, Box::new(body)))
}
