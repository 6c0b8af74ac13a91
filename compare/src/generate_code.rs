//! Codes for generated jobs: every instruction, comparison and structure.

use crate::build::block;
use crate::scene::Scene;
use crate::tree::Instruction::*;
use crate::tree::*;

fn ins(instruction: Instruction) -> Code {
    Code::unplaced(Node::Ins(instruction))
}

// Instructions.
impl Scene {
    pub fn instruction(&mut self) -> Code {
        let number = if self.favourites.is_empty() || self.rng.percent(20) {
            1 + self.rng.below(INSTRUCTION_KINDS)
        } else {
            self.rng.pick(&self.favourites)
        };
        ins(self.numbered(number))
    }

    pub fn numbered(&mut self, number: usize) -> Instruction {
        match number {
            1 => Mov64(self.destination(), self.source()),
            2 => Add64(self.destination(), self.source()),
            3 => AddLea64(self.destination(), self.source(), self.source()),
            4 => AddCarry64(self.destination(), self.source()),
            5 => Adcx64(self.destination(), self.source()),
            6 => Adox64(self.destination(), self.source()),
            7 => Sub64(self.destination(), self.source()),
            8 => Mul64(self.source()),
            9 => Mulx64(self.destination(), self.destination(), self.source()),
            10 => IMul64(self.destination(), self.source()),
            11 => Xor64(self.destination(), self.source()),
            12 => And64(self.destination(), self.source()),
            13 => Shr64(self.destination(), self.shift_amount()),
            14 => Shl64(self.destination(), self.shift_amount()),
            15 => Paddd(self.xmm(), self.xmm()),
            16 => Pxor(self.xmm(), self.xmm()),
            17 => Pslld(self.xmm(), self.word_shift()),
            18 => Psrld(self.xmm(), self.word_shift()),
            19 => Pshufd(self.xmm(), self.xmm(), self.rng.edge_byte()),
            20 => Pcmpeqd(self.xmm(), self.xmm()),
            21 => Pextrq(self.destination(), self.xmm(), self.rng.edge_byte()),
            22 => Pinsrd(self.xmm(), self.source(), self.rng.edge_byte()),
            23 => Pinsrq(self.xmm(), self.source(), self.rng.edge_byte()),
            24 => Vpslldq(self.xmm(), self.xmm(), self.byte_shift()),
            25 => Popcnt64(self.destination(), self.counted()),
            26 => Lzcnt64(self.destination(), self.counted()),
            _ => Tzcnt64(self.destination(), self.counted()),
        }
    }

    fn xmm(&mut self) -> Xmm {
        if self.rng.percent(60) {
            return self.rng.below(4) as Xmm;
        }
        self.rng.below(16) as Xmm
    }

    fn word_shift(&mut self) -> u8 {
        if self.goes_wild() {
            return self.rng.pick(&[32, 33, 63, 64, 128, 255]);
        }
        if self.rng.percent(40) {
            return self.rng.pick(&[0, 1, 30, 31]);
        }
        self.rng.below(32) as u8
    }

    fn byte_shift(&mut self) -> u8 {
        if self.goes_wild() {
            return self.rng.pick(&[0, 1, 3, 5, 8, 12, 16, 20, 32, 255]);
        }
        4
    }

    /// Mulx64 whose high destination is found through the register that the
    /// low half has just been written to. Rdx is set to the low half first.
    fn mulx_through_low(&mut self) -> Vec<Code> {
        if self.data_cells.is_empty() {
            return vec![self.instruction()];
        }
        let cell = self.rng.pick(&self.data_cells);
        let offset = self.rng.pick(&[0, 8, -8, 4096]);
        let low = (i128::from(cell) - i128::from(offset)).rem_euclid(1 << 64) as u64;
        let through = self.rng.pick(&self.data);
        let (dst_lo, dst_hi) = (Operand::Reg(through), Maddr::Reg(through, offset));
        let mulx = Mulx64(Operand::Mem(dst_hi), dst_lo, Operand::Const(1));
        let set = Mov64(Operand::Reg(RDX), Operand::Const(low));
        vec![ins(set), ins(mulx)]
    }

    /// A word worth counting is put somewhere and counted there.
    fn count_in_place(&mut self) -> Vec<Code> {
        let (place, dst) = (self.destination(), self.destination());
        let set = Mov64(place, Operand::Const(self.rng.run_of_ones()));
        let count = self.rng.pick(&COUNTS);
        vec![ins(set), ins(count(dst, place))]
    }
}

// Structures.
impl Scene {
    /// Some codes in a row, about `size` instructions all told.
    pub fn codes(&mut self, size: usize, depth: usize) -> Vec<Code> {
        let mut codes = Vec::new();
        let mut left = size;
        while left > 0 {
            let share = 1 + self.rng.below(left.min(8));
            codes.push(self.code(share, depth));
            left -= share;
        }
        if self.rng.percent(5) {
            codes.extend(self.mulx_through_low());
        }
        if self.rng.percent(5) {
            codes.extend(self.count_in_place());
        }
        codes
    }

    pub fn code(&mut self, size: usize, depth: usize) -> Code {
        if size <= 1 || depth == 0 {
            return match self.rng.below(40) {
                0 => block(Vec::new()),
                _ => self.instruction(),
            };
        }
        match self.rng.below(4) {
            0 => block(self.codes(size, depth - 1)),
            1 => self.if_else(size, depth),
            2 if !self.counters.is_empty() => self.counted_loop(size, depth),
            _ => block((0..size).map(|_| self.instruction()).collect()),
        }
    }

    /// A part: one code, which may be a Block.
    fn part(&mut self, size: usize, depth: usize) -> Box<Code> {
        let part = if self.rng.percent(50) {
            self.code(size, depth)
        } else {
            block(self.codes(size, depth.saturating_sub(1)))
        };
        Box::new(part)
    }

    fn if_else(&mut self, size: usize, depth: usize) -> Code {
        let condition = self.comparison();
        let yes = self.part(size / 2, depth - 1);
        let no = self.part(size - size / 2, depth - 1);
        Code::unplaced(Node::IfElse(condition, yes, no))
    }

    pub fn comparison(&mut self) -> Ocmp {
        let relation = self.rng.pick(&RELATIONS);
        let left = self.source();
        let right = match self.rng.below(4) {
            0 => left,
            _ => self.source(),
        };
        Ocmp::unplaced(relation, left, right)
    }

    /// A loop over a counter that nothing inside the loop touches but its
    /// own last instruction.
    fn counted_loop(&mut self, size: usize, depth: usize) -> Code {
        let counter = self.rng.below(self.counters.len());
        let counter = self.counters.swap_remove(counter);
        let rounds = self.rng.pick(&[0, 1, 1, 2, 3, 5]);
        let (from, relation, limit, step) = self.counting(counter, rounds);
        let condition = if self.goes_wild() {
            Ocmp::unplaced(relation, counter, self.wild_memory())
        } else if self.rng.percent(70) {
            Ocmp::unplaced(relation, counter, Operand::Const(limit))
        } else {
            Ocmp::unplaced(mirrored(relation), Operand::Const(limit), counter)
        };
        let body = if self.rng.percent(15) {
            step
        } else {
            let mut codes = self.codes(size - 1, depth.saturating_sub(2));
            codes.push(step);
            block(codes)
        };
        let looped = Code::unplaced(Node::While(condition, Box::new(body)));
        self.counters.push(counter);
        let set = ins(Mov64(counter, Operand::Const(from)));
        block(vec![set, looped])
    }

    /// First value, condition, limit and the step, for so many rounds.
    fn counting(&mut self, counter: Operand, rounds: u64) -> (u64, Relation, u64, Code) {
        let up = ins(Add64(counter, Operand::Const(1)));
        let lea = ins(AddLea64(counter, counter, Operand::Const(1)));
        let down = ins(Sub64(counter, Operand::Const(1)));
        let wraps = 0u64.wrapping_sub(rounds);
        match self.rng.below(7) {
            0 => (rounds, Relation::Ne, 0, down),
            1 => (rounds, Relation::Gt, 0, down),
            2 => (rounds, Relation::Ge, 1, down),
            3 => (0, Relation::Lt, rounds, up),
            4 => (1, Relation::Le, rounds, lea),
            5 => (wraps, Relation::Ne, 0, up),
            _ => (7, Relation::Eq, 7, lea),
        }
    }

    /// A loop that only fuel ends, with something to do in its rounds.
    pub fn endless_loop(&mut self, size: usize, depth: usize) -> Code {
        let condition = match self.rng.below(3) {
            0 => Ocmp::unplaced(Relation::Eq, Operand::Reg(RSP), Operand::Reg(RSP)),
            1 => Ocmp::unplaced(Relation::Ge, self.source(), Operand::Const(0)),
            _ => self.comparison(),
        };
        let body = self.part(size, depth);
        Code::unplaced(Node::While(condition, body))
    }
}

fn mirrored(relation: Relation) -> Relation {
    match relation {
        Relation::Le => Relation::Ge,
        Relation::Ge => Relation::Le,
        Relation::Lt => Relation::Gt,
        Relation::Gt => Relation::Lt,
        same => same,
    }
}
