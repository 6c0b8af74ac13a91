//! The byte machine: one byte at every address below 2^64, no cells, every
//! check counted as passed. It is written apart from source.rs, with the
//! processor-like operations of the language where that one divides, and it
//! keeps an xmm register as one number of 128 bits, lo0 lowest. So that the
//! checks can halt it anywhere, it also takes a number of steps, which it counts
//! down; the paper's own does as many as come. The board's overflow it tells by
//! signs, where instructions.rs works out the signed sum.

use crate::cells::Cell;
use crate::state::{Quad, Start};
use crate::terms::Evaluation;
use crate::tree::Instruction::*;
use crate::tree::*;
use std::collections::HashMap;

const CARRY: u64 = 1;
const OVERFLOW: u64 = 1 << 11;
const SIGN: u64 = 1 << 63;

/// Bytes not written yet are a hash of their address.
#[derive(Clone)]
pub struct ByteMemory {
    salt: u64,
    pub written: HashMap<u64, u8>,
}

impl ByteMemory {
    pub fn new(salt: u64, cells: &[Cell]) -> ByteMemory {
        let mut memory = ByteMemory {
            salt,
            written: HashMap::new(),
        };
        for cell in cells {
            memory.spell(cell.address, cell.value, u64::from(cell.tag / 8));
        }
        memory
    }

    pub fn untouched(&self, address: u64) -> u8 {
        let mut z = (address ^ self.salt).wrapping_mul(0xff51_afd7_ed55_8ccd);
        z = (z ^ (z >> 33)).wrapping_mul(0xc4ce_b9fe_1a85_ec53);
        (z >> 56) as u8
    }

    pub fn byte(&self, address: u64) -> u8 {
        let written = self.written.get(&address).copied();
        written.unwrap_or_else(|| self.untouched(address))
    }

    fn spell(&mut self, address: u64, value: u64, count: u64) {
        for i in 0..count {
            let byte = (value >> (8 * i)) as u8;
            self.written.insert(address.wrapping_add(i), byte);
        }
    }

    pub fn gather(&self, address: u64, count: u64) -> u64 {
        (0..count).rev().fold(0, |value, i| {
            value << 8 | u64::from(self.byte(address.wrapping_add(i)))
        })
    }

    /// Whether the cell's bytes spell its value.
    pub fn agrees(&self, cell: &Cell) -> bool {
        self.gather(cell.address, u64::from(cell.tag / 8)) == cell.value
    }
}

#[derive(Clone)]
pub struct Machine {
    pub regs: [u64; 16],
    xmms: [u128; 16],
    pub flags: u64,
    pub memory: ByteMemory,
    fill: u64,
    evaluation: Evaluation,
    /// Instructions and tests that it may still do.
    pub left: u64,
}

/// Why the machine halted ahead of the end.
#[derive(Debug, PartialEq, Eq)]
pub enum Halt {
    /// At a While met with fuel 0.
    OutOfFuel,
    /// At an instruction or test with none left to do.
    OutOfSteps,
}

impl Machine {
    pub fn new(start: &Start, fill: u64, evaluation: Evaluation, memory: ByteMemory) -> Machine {
        let join = |q: Quad| q.iter().rev().fold(0, |x, w| x << 32 | u128::from(*w));
        Machine {
            regs: start.regs,
            xmms: start.xmms.map(join),
            flags: start.flags,
            memory,
            fill,
            evaluation,
            left: u64::MAX,
        }
    }

    pub fn visible(&self) -> Start {
        let split = |x: u128| [0, 1, 2, 3].map(|i| (x >> (32 * i)) as u32);
        Start {
            flags: self.flags,
            regs: self.regs,
            xmms: self.xmms.map(split),
        }
    }

    pub fn run(&mut self, code: &Code, fuel: u64) -> Result<(), Halt> {
        match &code.node {
            Node::Ins(ins) => {
                self.take_one()?;
                self.instruction(ins);
            }
            Node::Block(codes) => {
                for child in codes {
                    self.run(child, fuel)?;
                }
            }
            Node::IfElse(condition, if_true, if_false) => {
                let taken = if self.test(condition)? {
                    if_true
                } else {
                    if_false
                };
                self.run(taken, fuel)?;
            }
            Node::While(condition, body) => self.rounds(condition, body, fuel)?,
        }
        Ok(())
    }

    fn rounds(&mut self, condition: &Ocmp, body: &Code, fuel: u64) -> Result<(), Halt> {
        for left in (0..fuel).rev() {
            if !self.test(condition)? {
                return Ok(());
            }
            self.run(body, left)?;
        }
        Err(Halt::OutOfFuel)
    }

    fn take_one(&mut self) -> Result<(), Halt> {
        self.left = self.left.checked_sub(1).ok_or(Halt::OutOfSteps)?;
        Ok(())
    }

    fn test(&mut self, condition: &Ocmp) -> Result<bool, Halt> {
        use std::cmp::Ordering::*;
        self.take_one()?;
        let order = self.read(condition.left).cmp(&self.read(condition.right));
        self.flags = self.fill;
        Ok(match condition.relation {
            Relation::Eq => order == Equal,
            Relation::Ne => order != Equal,
            Relation::Le => order != Greater,
            Relation::Ge => order != Less,
            Relation::Lt => order == Less,
            Relation::Gt => order == Greater,
        })
    }
}

// Operands.
impl Machine {
    /// The exact address modulo 2^64, which wrapping steps also reach.
    fn address(&self, m: Maddr) -> u64 {
        let reg = |r: Reg| self.regs[usize::from(r)];
        match m {
            Maddr::Const(n) => n,
            Maddr::Reg(r, offset) => reg(r).wrapping_add(offset as u64),
            Maddr::Index(base, scale, index, offset) => {
                let scaled = reg(index).wrapping_mul(i64::from(scale) as u64);
                reg(base).wrapping_add(scaled).wrapping_add(offset as u64)
            }
        }
    }

    fn read(&self, o: Operand) -> u64 {
        match o {
            Operand::Const(n) => n,
            Operand::Reg(r) => self.regs[usize::from(r)],
            Operand::Mem(m) => self.memory.gather(self.address(m), 8),
        }
    }

    fn write(&mut self, o: Operand, value: u64) {
        match o {
            Operand::Const(_) => {}
            Operand::Reg(r) => self.regs[usize::from(r)] = value,
            Operand::Mem(m) => {
                let address = self.address(m);
                self.memory.spell(address, value, 8);
            }
        }
    }

    fn put_flag(&mut self, mask: u64, on: bool) {
        self.flags = if on {
            self.flags | mask
        } else {
            self.flags & !mask
        };
    }
}

// Instructions.
impl Machine {
    fn instruction(&mut self, ins: &Instruction) {
        match *ins {
            Mov64(dst, src) => self.write(dst, self.read(src)),
            Add64(dst, src) => self.add_as_evaluated(dst, src, 0),
            AddLea64(dst, a, b) => self.write(dst, self.read(a).wrapping_add(self.read(b))),
            AddCarry64(dst, src) => self.add_as_evaluated(dst, src, CARRY),
            Adcx64(dst, src) => self.add(dst, src, CARRY, CARRY),
            Adox64(dst, src) => self.add(dst, src, OVERFLOW, OVERFLOW),
            Sub64(dst, src) => self.arithmetic(dst, src, u64::wrapping_sub),
            Mul64(src) => self.mul(src),
            Mulx64(dst_hi, dst_lo, src) => self.mulx(dst_hi, dst_lo, src),
            IMul64(dst, src) => self.arithmetic(dst, src, u64::wrapping_mul),
            Xor64(dst, src) => {
                self.arithmetic(dst, src, |a, b| a ^ b);
                self.put_flag(CARRY | OVERFLOW, false);
            }
            And64(dst, src) => self.arithmetic(dst, src, |a, b| a & b),
            Shr64(dst, amt) => self.arithmetic(dst, amt, |a, n| shift(a, n, u64::checked_shr)),
            Shl64(dst, amt) => self.arithmetic(dst, amt, |a, n| shift(a, n, u64::checked_shl)),
            Popcnt64(dst, src) => {
                self.count(dst, self.read(src), ones);
                self.put_flag(CARRY | OVERFLOW, false);
            }
            Lzcnt64(dst, src) => self.zeros(dst, src, |a| steps_to_a_one(a, 1 << 63, |a| a << 1)),
            Tzcnt64(dst, src) => self.zeros(dst, src, |a| steps_to_a_one(a, 1, |a| a >> 1)),
            other => self.xmm_instruction(other),
        }
    }

    fn xmm_instruction(&mut self, ins: Instruction) {
        match ins {
            Paddd(dst, src) => {
                self.words(dst, src, u32::wrapping_add);
                self.flags = self.fill;
            }
            Pxor(dst, src) => self.xmms[usize::from(dst)] ^= self.xmms[usize::from(src)],
            Pslld(dst, amt) => {
                let amount = u32::from(amt);
                self.each_word(dst, |w| w.checked_shl(amount).unwrap_or(0));
            }
            Psrld(dst, amt) => {
                let amount = u32::from(amt);
                self.each_word(dst, |w| w.checked_shr(amount).unwrap_or(0));
            }
            Pshufd(dst, src, permutation) => self.shuffle(dst, src, permutation),
            Pcmpeqd(dst, src) => self.words(dst, src, |a, b| u32::from(a != b).wrapping_sub(1)),
            Pextrq(dst, src, index) => {
                let half = self.xmms[usize::from(src)] >> (64 * (index & 1));
                self.write(dst, half as u64);
            }
            Pinsrd(dst, src, index) => {
                let word = u128::from(self.read(src) as u32);
                self.insert(dst, word, u128::from(u32::MAX), 32 * u32::from(index & 3));
            }
            Pinsrq(dst, src, index) => {
                let half = u128::from(self.read(src));
                self.insert(dst, half, u128::from(u64::MAX), 64 * u32::from(index & 1));
            }
            Vpslldq(dst, src, _) => {
                self.xmms[usize::from(dst)] = self.xmms[usize::from(src)] << 32;
            }
            _ => unreachable!("the general instructions are done before"),
        }
    }

    /// Puts the carry into the flag under `given`; the other flags stay.
    fn add(&mut self, dst: Operand, src: Operand, taken: u64, given: u64) {
        let sum = self.sum(dst, src, taken);
        self.put_flag(given, sum.carries);
    }

    /// Add64 and AddCarry64. On the board every bit but carry and overflow comes
    /// from the fill word.
    fn add_as_evaluated(&mut self, dst: Operand, src: Operand, taken: u64) {
        let sum = self.sum(dst, src, taken);
        if self.evaluation == Evaluation::Board {
            self.flags = self.fill;
            self.put_flag(OVERFLOW, sum.turns);
        }
        self.put_flag(CARRY, sum.carries);
    }

    /// Adds with the flag under `taken` (none for 0) and writes the sum.
    fn sum(&mut self, dst: Operand, src: Operand, taken: u64) -> Sum {
        let carry = u64::from(self.flags & taken != 0);
        let (a, b) = (self.read(dst), self.read(src));
        let (partial, first) = a.overflowing_add(b);
        let (sum, second) = partial.overflowing_add(carry);
        self.write(dst, sum);
        Sum {
            carries: first || second,
            turns: (a ^ sum) & (b ^ sum) & SIGN != 0,
        }
    }

    fn arithmetic(&mut self, dst: Operand, src: Operand, work: fn(u64, u64) -> u64) {
        let value = work(self.read(dst), self.read(src));
        self.write(dst, value);
        self.flags = self.fill;
    }

    fn count(&mut self, dst: Operand, value: u64, work: fn(u64) -> u64) {
        self.write(dst, work(value));
        self.flags = self.fill;
    }

    /// The source is read once: the count may go to the same place.
    fn zeros(&mut self, dst: Operand, src: Operand, work: fn(u64) -> u64) {
        let value = self.read(src);
        self.count(dst, value, work);
        self.put_flag(CARRY, value == 0);
    }

    fn mul(&mut self, src: Operand) {
        let product = u128::from(self.regs[usize::from(RAX)]) * u128::from(self.read(src));
        self.regs[usize::from(RAX)] = product as u64;
        self.regs[usize::from(RDX)] = (product >> 64) as u64;
        self.flags = self.fill;
    }

    fn mulx(&mut self, dst_hi: Operand, dst_lo: Operand, src: Operand) {
        let product = u128::from(self.regs[usize::from(RDX)]) * u128::from(self.read(src));
        self.write(dst_lo, product as u64);
        self.write(dst_hi, (product >> 64) as u64);
    }

    fn words(&mut self, dst: Xmm, src: Xmm, work: fn(u32, u32) -> u32) {
        let (a, b) = (self.xmms[usize::from(dst)], self.xmms[usize::from(src)]);
        let mut out = 0;
        for at in [0, 32, 64, 96] {
            out |= u128::from(work((a >> at) as u32, (b >> at) as u32)) << at;
        }
        self.xmms[usize::from(dst)] = out;
    }

    fn each_word(&mut self, dst: Xmm, work: impl Fn(u32) -> u32) {
        let a = self.xmms[usize::from(dst)];
        let mut out = 0;
        for at in [0, 32, 64, 96] {
            out |= u128::from(work((a >> at) as u32)) << at;
        }
        self.xmms[usize::from(dst)] = out;
    }

    fn shuffle(&mut self, dst: Xmm, src: Xmm, permutation: u8) {
        let a = self.xmms[usize::from(src)];
        let mut out = 0;
        for lane in 0..4 {
            let chosen = permutation >> (2 * lane) & 3;
            out |= u128::from((a >> (32 * chosen)) as u32) << (32 * lane);
        }
        self.xmms[usize::from(dst)] = out;
    }

    fn insert(&mut self, dst: Xmm, value: u128, mask: u128, at: u32) {
        let x = &mut self.xmms[usize::from(dst)];
        *x = *x & !(mask << at) | value << at;
    }
}

/// What the flags are told of a sum.
struct Sum {
    /// Out of the 64 bits.
    carries: bool,
    /// Both operands have one sign, the sum has the other.
    turns: bool,
}

/// A shift by the width or more gives 0.
fn shift(value: u64, amount: u64, by: fn(u64, u32) -> Option<u64>) -> u64 {
    let amount = u32::try_from(amount).ok();
    amount.and_then(|n| by(value, n)).unwrap_or(0)
}

fn ones(value: u64) -> u64 {
    (0..64).map(|place| value >> place & 1).sum()
}

/// How many steps bring a one under the mask `end`, 64 where there is none.
fn steps_to_a_one(mut value: u64, end: u64, step: fn(u64) -> u64) -> u64 {
    for taken in 0..64 {
        if value & end != 0 {
            return taken;
        }
        value = step(value);
    }
    64
}

#[cfg(test)]
#[path = "bytes_tests.rs"]
mod tests;
