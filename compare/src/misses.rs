//! Jobs that run for a while and then meet memory that is not there: in the
//! 64-bit range but without a cell, or out of the range. The roles take turns.

use crate::build::{block, if_else, ins, repeat};
use crate::scene::Scene;
use crate::tree::Instruction::*;
use crate::tree::*;

impl Scene {
    fn missing_memory(&mut self) -> Operand {
        if self.rng.percent(70) {
            self.outside_memory()
        } else {
            self.absent_memory()
        }
    }

    /// What is judged behind a miss, and so does not matter.
    fn behind(&mut self) -> Operand {
        match self.rng.below(5) {
            0 => self.outside_memory(),
            1 => self.absent_memory(),
            2 => Operand::Reg(RSP),
            3 => Operand::Const(self.rng.edge_word()),
            _ => self.destination(),
        }
    }

    /// One instruction or comparison with a miss, all before which is sound.
    pub fn miss(&mut self, turn: usize) -> Code {
        let (miss, behind) = (self.missing_memory(), self.behind());
        let (dst, src, amt) = (self.destination(), self.source(), self.shift_amount());
        let two = self.rng.pick(&TWOS);
        let shift: OfTwo = self.rng.pick(&[Shr64, Shl64]);
        let byte = self.rng.edge_byte();
        ins(match turn % 16 {
            0 => two(behind, miss),
            1 => two(miss, src),
            2 => AddLea64(dst, miss, behind),
            3 => AddLea64(behind, src, miss),
            4 => AddLea64(miss, src, src),
            5 => Mul64(miss),
            6 => Mulx64(dst, behind, miss),
            7 => Mulx64(behind, miss, src),
            8 => Mulx64(miss, dst, src),
            9 => shift(behind, miss),
            10 => shift(miss, amt),
            11 => Pextrq(miss, 1, byte),
            12 => Pinsrd(1, miss, byte),
            13 => Pinsrq(1, miss, byte),
            14 => return self.tested(miss, behind),
            _ => return self.tested(src, miss),
        })
    }

    fn tested(&mut self, left: Operand, right: Operand) -> Code {
        let condition = Ocmp::unplaced(self.rng.pick(&RELATIONS), left, right);
        let part = || block(Vec::new());
        if self.rng.percent(50) {
            if_else(condition, part(), part())
        } else {
            repeat(condition, part())
        }
    }
}
