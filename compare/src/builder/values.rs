//! Values for calls, and trees to walk. Nothing here is meant to run, so all
//! kinds are equally likely and fields take any value.

use super::calls::Call;
use crate::build::{block, if_else, ins, repeat};
use crate::rng::Rng;
use crate::tree::Instruction::*;
use crate::tree::*;

pub struct Values<'a> {
    rng: &'a mut Rng,
    /// How many of a hundred register and xmm numbers are above 15. Of scales, which
    /// only one kind of operand has, three times as many are none of the four.
    bad: usize,
}

// Instructions, comparisons and calls.
impl<'a> Values<'a> {
    pub fn new(rng: &'a mut Rng, bad: usize) -> Values<'a> {
        Values { rng, bad }
    }

    fn number(&mut self) -> u8 {
        if self.rng.percent(self.bad) {
            return self.rng.pick(&[16, 16, 17, 31, 32, 127, 128, 255]);
        }
        self.rng.below(16) as u8
    }

    fn operand(&mut self) -> Operand {
        let (word, offset) = (self.rng.edge_word(), self.rng.edge_word() as i64);
        match self.rng.below(5) {
            0 => Operand::Const(word),
            1 => Operand::Reg(self.number()),
            2 => Operand::Mem(Maddr::Const(word)),
            3 => Operand::Mem(Maddr::Reg(self.number(), offset)),
            _ => self.longest_operand(),
        }
    }

    fn scale(&mut self) -> i16 {
        if self.rng.percent(3 * self.bad) {
            return self.rng.other_scale();
        }
        self.rng.scale()
    }

    fn longest_operand(&mut self) -> Operand {
        let (scale, offset) = (self.scale(), self.rng.edge_word() as i64);
        Operand::Mem(Maddr::Index(self.number(), scale, self.number(), offset))
    }

    /// 40 bytes.
    pub fn longest_instruction(&mut self) -> Instruction {
        let [a, b, c] = std::array::from_fn(|_| self.longest_operand());
        AddLea64(a, b, c)
    }

    pub fn comparison(&mut self) -> Ocmp {
        let relation = self.rng.pick(&RELATIONS);
        Ocmp::unplaced(relation, self.operand(), self.operand())
    }

    pub fn instruction(&mut self) -> Instruction {
        match 1 + self.rng.below(INSTRUCTION_KINDS) {
            1 => Mov64(self.operand(), self.operand()),
            2 => Add64(self.operand(), self.operand()),
            3 => AddLea64(self.operand(), self.operand(), self.operand()),
            4 => AddCarry64(self.operand(), self.operand()),
            5 => Adcx64(self.operand(), self.operand()),
            6 => Adox64(self.operand(), self.operand()),
            7 => Sub64(self.operand(), self.operand()),
            8 => Mul64(self.operand()),
            9 => Mulx64(self.operand(), self.operand(), self.operand()),
            10 => IMul64(self.operand(), self.operand()),
            11 => Xor64(self.operand(), self.operand()),
            12 => And64(self.operand(), self.operand()),
            13 => Shr64(self.operand(), self.operand()),
            14 => Shl64(self.operand(), self.operand()),
            15 => Paddd(self.number(), self.number()),
            16 => Pxor(self.number(), self.number()),
            17 => Pslld(self.number(), self.rng.edge_byte()),
            18 => Psrld(self.number(), self.rng.edge_byte()),
            19 => Pshufd(self.number(), self.number(), self.rng.edge_byte()),
            20 => Pcmpeqd(self.number(), self.number()),
            21 => Pextrq(self.operand(), self.number(), self.rng.edge_byte()),
            22 => Pinsrd(self.number(), self.operand(), self.rng.edge_byte()),
            23 => Pinsrq(self.number(), self.operand(), self.rng.edge_byte()),
            24 => Vpslldq(self.number(), self.number(), self.rng.edge_byte()),
            25 => Popcnt64(self.operand(), self.operand()),
            26 => Lzcnt64(self.operand(), self.operand()),
            _ => Tzcnt64(self.operand(), self.operand()),
        }
    }

    pub fn call(&mut self) -> Call {
        match self.rng.below(20) {
            0..=8 => Call::Add(self.instruction()),
            9..=13 => Call::Close,
            14..=16 => self.opening(),
            17 => Call::OpenBlock,
            18 => Call::OpenIfElse(self.comparison()),
            _ => Call::OpenWhile(self.comparison()),
        }
    }

    pub fn opening(&mut self) -> Call {
        match self.rng.below(3) {
            0 => Call::OpenBlock,
            1 => Call::OpenIfElse(self.comparison()),
            _ => Call::OpenWhile(self.comparison()),
        }
    }
}

// Trees.
impl Values<'_> {
    /// One code of about `size` instructions and at most `depth` levels.
    pub fn tree(&mut self, size: usize, depth: usize) -> Code {
        if size <= 1 || depth <= 1 {
            return self.leaf();
        }
        match self.rng.below(4) {
            0 => {
                let yes = self.tree(size / 2, depth - 1);
                let no = self.tree(size - size / 2, depth - 1);
                if_else(self.comparison(), yes, no)
            }
            1 => {
                let body = self.tree(size, depth - 1);
                repeat(self.comparison(), body)
            }
            _ => block(self.row(size, depth - 1)),
        }
    }

    fn leaf(&mut self) -> Code {
        match self.rng.below(8) {
            0 => block(Vec::new()),
            _ => ins(self.instruction()),
        }
    }

    fn row(&mut self, size: usize, depth: usize) -> Vec<Code> {
        let mut codes = Vec::new();
        let mut left = size;
        while left > 0 {
            let share = 1 + self.rng.below(left);
            codes.push(self.tree(share, depth));
            left -= share;
        }
        codes
    }

    /// A code of exactly so many levels, one inside the other.
    pub fn spine(&mut self, levels: usize) -> Code {
        let mut code = self.leaf();
        for _ in 1..levels {
            let beside = self.leaf();
            code = match self.rng.below(6) {
                0 => block(vec![code]),
                1 => block(vec![beside, code]),
                2 => block(vec![code, beside]),
                3 => if_else(self.comparison(), code, beside),
                4 => if_else(self.comparison(), beside, code),
                _ => repeat(self.comparison(), code),
            };
        }
        code
    }
}
