//! A plain interpreter of the same bytes, decoding as it goes: what the proved evaluator is measured against.
//! It takes accepted code and cells. It is a yardstick: made neither quicker nor slower, so that the ratios of one
//! landing can be held beside those of another. What a request adds gets a function of its own, as 2026-06's board has for
//! its additions and 2026-07's watch; steps, which request 2026-04 has every evaluator count and limit, are counted where
//! they are made.

use crate::watch::{open_both, see};
use pokchrei::{Evaluation, Watch};

const RSP: usize = 7;
const RAX: usize = 0;
const RDX: usize = 3;

pub struct Machine<'a> {
    pub code: &'a [u8],
    pub addresses: &'a [u64],
    pub tags: &'a [u8],
    pub values: &'a mut [u64],
    pub regs: [u64; 16],
    pub xmms: [[u32; 4]; 16],
    pub flags: u64,
    pub fill: u64,
    pub limit: u64,
    pub evaluation: Evaluation,
    pub steps: u64,
    pub watch: Watch,
}

#[derive(Debug, PartialEq, Eq)]
pub enum Stop {
    Fault(u8, usize),
    /// The limit leaves no step to what is at this place.
    Limit(usize),
    Spent(usize),
}

#[derive(Clone, Copy)]
enum Place {
    Const(u64),
    Reg(usize),
    Mem(Option<u64>),
}

#[derive(Clone, Copy)]
enum Slot {
    Reg(usize),
    Cell(usize),
}

pub fn with_bit(flags: u64, bit: u32, on: bool) -> u64 {
    flags & !(1 << bit) | (on as u64) << bit
}

pub fn sum(a: u64, b: u64, carry: bool) -> (u64, bool) {
    let (x, first) = a.overflowing_add(b);
    let (y, second) = x.overflowing_add(carry as u64);
    (y, first | second)
}

/// The sum of two words and a carry, and the flags that an Add64 or an AddCarry64 leaves.
pub fn added(
    evaluation: Evaluation,
    a: u64,
    b: u64,
    carry: bool,
    flags: u64,
    fill: u64,
) -> (u64, u64) {
    let (word, out) = sum(a, b, carry);
    let kept = match evaluation {
        Evaluation::Base => flags,
        Evaluation::Board => with_bit(fill, 11, ((a ^ word) & (b ^ word)) >> 63 == 1),
    };
    (word, with_bit(kept, 0, out))
}

/// The count of a word's bits that an instruction of this kind makes, and the flags of a fill word.
pub fn counted(kind: u8, word: u64, fill: u64) -> (u64, u64) {
    let zeros = with_bit(fill, 0, word == 0);
    match kind {
        0x19 => (word.count_ones().into(), fill & !(1 | 1 << 11)),
        0x1a => (word.leading_zeros().into(), zeros),
        _ => (word.trailing_zeros().into(), zeros),
    }
}

impl Machine<'_> {
    fn u32_at(&self, at: usize) -> usize {
        u32::from_le_bytes(self.code[at..at + 4].try_into().unwrap()) as usize
    }

    fn u64_at(&self, at: usize) -> u64 {
        u64::from_le_bytes(self.code[at..at + 8].try_into().unwrap())
    }

    fn operand(&self, at: usize) -> (Place, usize) {
        match self.code[at] {
            0x40 => (Place::Const(self.u64_at(at + 1)), at + 9),
            0x41 => (Place::Reg(self.code[at + 1] as usize), at + 2),
            0x42 => (Place::Mem(Some(self.u64_at(at + 1))), at + 9),
            0x43 => {
                let base = self.regs[self.code[at + 1] as usize];
                let offset = self.u64_at(at + 2) as i64;
                (Place::Mem(base.checked_add_signed(offset)), at + 10)
            }
            _ => {
                let base = self.regs[self.code[at + 1] as usize] as i128;
                let scale = i16::from_le_bytes([self.code[at + 2], self.code[at + 3]]) as i128;
                let index = self.regs[self.code[at + 4] as usize] as i128;
                let offset = self.u64_at(at + 5) as i64 as i128;
                let address = u64::try_from(base + scale * index + offset).ok();
                (Place::Mem(address), at + 13)
            }
        }
    }

    /// The 64-bit cell at an address, or the number of the check: 36 where there is none, else that of an absent cell.
    fn cell(&self, address: Option<u64>, absent: u8) -> Result<usize, u8> {
        let address = address.ok_or(36)?;
        match self.addresses.binary_search(&address) {
            Ok(i) if self.tags[i] == 64 => Ok(i),
            _ => Err(absent),
        }
    }

    fn read(&self, place: Place, at: usize) -> Result<u64, Stop> {
        match place {
            Place::Const(n) => Ok(n),
            Place::Reg(r) => Ok(self.regs[r]),
            Place::Mem(a) => match self.cell(a, 31) {
                Ok(i) => Ok(self.values[i]),
                Err(number) => Err(Stop::Fault(number, at)),
            },
        }
    }

    fn slot(&self, place: Place, at: usize) -> Result<Slot, Stop> {
        match place {
            Place::Reg(r) if r != RSP => Ok(Slot::Reg(r)),
            Place::Mem(a) => match self.cell(a, 32) {
                Ok(i) => Ok(Slot::Cell(i)),
                Err(number) => Err(Stop::Fault(number, at)),
            },
            _ => Err(Stop::Fault(32, at)),
        }
    }

    fn get(&self, slot: Slot) -> u64 {
        match slot {
            Slot::Reg(r) => self.regs[r],
            Slot::Cell(i) => self.values[i],
        }
    }

    fn put(&mut self, slot: Slot, word: u64) {
        match slot {
            Slot::Reg(r) => self.regs[r] = word,
            Slot::Cell(i) => self.values[i] = word,
        }
    }

    fn result(&self, kind: u8, a: u64, b: u64) -> (u64, u64) {
        match kind {
            0x01 => (b, self.flags),
            0x02 => added(self.evaluation, a, b, false, self.flags, self.fill),
            0x04 => added(
                self.evaluation,
                a,
                b,
                self.flags & 1 == 1,
                self.flags,
                self.fill,
            ),
            0x05 => {
                let (v, c) = sum(a, b, self.flags & 1 == 1);
                (v, with_bit(self.flags, 0, c))
            }
            0x06 => {
                let (v, c) = sum(a, b, self.flags >> 11 & 1 == 1);
                (v, with_bit(self.flags, 11, c))
            }
            0x07 => (a.wrapping_sub(b), self.fill),
            0x0a => (a.wrapping_mul(b), self.fill),
            0x0b => (a ^ b, self.fill & !(1 | 1 << 11)),
            0x0c => (a & b, self.fill),
            0x0d => (a >> b, self.fill),
            _ => (a << b, self.fill),
        }
    }

    fn two(&mut self, at: usize) -> Result<usize, Stop> {
        let (dst, next) = self.operand(at + 1);
        let (src, next) = self.operand(next);
        let b = self.read(src, at)?;
        let kind = self.code[at];
        if kind >= 0x0d && b > 63 {
            return Err(Stop::Fault(33, at));
        }
        let slot = self.slot(dst, at)?;
        let (v, flags) = self.result(kind, self.get(slot), b);
        self.put(slot, v);
        self.flags = flags;
        Ok(next)
    }

    fn count(&mut self, at: usize) -> Result<usize, Stop> {
        let (dst, next) = self.operand(at + 1);
        let (src, next) = self.operand(next);
        let word = self.read(src, at)?;
        let slot = self.slot(dst, at)?;
        let (v, flags) = counted(self.code[at], word, self.fill);
        self.put(slot, v);
        self.flags = flags;
        Ok(next)
    }

    fn add_lea(&mut self, at: usize) -> Result<usize, Stop> {
        let (dst, next) = self.operand(at + 1);
        let (one, next) = self.operand(next);
        let (two, next) = self.operand(next);
        let a = self.read(one, at)?;
        let b = self.read(two, at)?;
        let slot = self.slot(dst, at)?;
        self.put(slot, a.wrapping_add(b));
        Ok(next)
    }

    fn mul(&mut self, at: usize) -> Result<usize, Stop> {
        let (src, next) = self.operand(at + 1);
        let b = self.read(src, at)?;
        let product = self.regs[RAX] as u128 * b as u128;
        self.regs[RAX] = product as u64;
        self.regs[RDX] = (product >> 64) as u64;
        self.flags = self.fill;
        Ok(next)
    }

    fn mulx(&mut self, at: usize) -> Result<usize, Stop> {
        let (_, next) = self.operand(at + 1);
        let (lo, next) = self.operand(next);
        let (src, next) = self.operand(next);
        let b = self.read(src, at)?;
        let low = self.slot(lo, at)?;
        let product = self.regs[RDX] as u128 * b as u128;
        let old = self.get(low);
        self.put(low, product as u64);
        let (hi, _) = self.operand(at + 1);
        match self.slot(hi, at) {
            Ok(high) => {
                self.put(high, (product >> 64) as u64);
                Ok(next)
            }
            Err(stop) => {
                self.put(low, old);
                Err(stop)
            }
        }
    }

    fn lanes(&mut self, at: usize) -> Result<usize, Stop> {
        let x = self.code[at + 1] as usize;
        let b = self.code[at + 2];
        let other = self.xmms[(b % 16) as usize];
        let quad = &mut self.xmms[x];
        match self.code[at] {
            0x0f => {
                (0..4).for_each(|j| quad[j] = quad[j].wrapping_add(other[j]));
                self.flags = self.fill;
            }
            0x10 => (0..4).for_each(|j| quad[j] ^= other[j]),
            0x11 | 0x12 if b > 31 => return Err(Stop::Fault(34, at)),
            0x11 => quad.iter_mut().for_each(|w| *w <<= b),
            0x12 => quad.iter_mut().for_each(|w| *w >>= b),
            _ => (0..4).for_each(|j| quad[j] = if quad[j] == other[j] { u32::MAX } else { 0 }),
        }
        Ok(at + 3)
    }

    fn shuffle(&mut self, at: usize) -> Result<usize, Stop> {
        let x = self.code[at + 1] as usize;
        let q = self.xmms[self.code[at + 2] as usize];
        let imm = self.code[at + 3];
        if self.code[at] == 0x13 {
            (0..4).for_each(|j| self.xmms[x][j] = q[(imm >> (2 * j) & 3) as usize]);
        } else if imm != 4 {
            return Err(Stop::Fault(35, at));
        } else {
            self.xmms[x] = [0, q[0], q[1], q[2]];
        }
        Ok(at + 4)
    }

    fn extract(&mut self, at: usize) -> Result<usize, Stop> {
        let q = self.xmms[self.code[at + 1] as usize];
        let i = (self.code[at + 2] % 2 * 2) as usize;
        let (dst, next) = self.operand(at + 3);
        let slot = self.slot(dst, at)?;
        self.put(slot, q[i] as u64 | (q[i + 1] as u64) << 32);
        Ok(next)
    }

    fn insert(&mut self, at: usize) -> Result<usize, Stop> {
        let x = self.code[at + 1] as usize;
        let index = self.code[at + 2];
        let (src, next) = self.operand(at + 3);
        let v = self.read(src, at)?;
        if self.code[at] == 0x16 {
            self.xmms[x][(index % 4) as usize] = v as u32;
        } else {
            let i = (index % 2 * 2) as usize;
            self.xmms[x][i] = v as u32;
            self.xmms[x][i + 1] = (v >> 32) as u32;
        }
        Ok(next)
    }

    /// Whether the limit leaves a step to what is at this place.
    fn may_step(&self, at: usize) -> Result<(), Stop> {
        if self.steps == self.limit {
            return Err(Stop::Limit(at));
        }
        Ok(())
    }

    fn compare(&mut self, at: usize) -> Result<(bool, usize), Stop> {
        self.may_step(at)?;
        let (one, next) = self.operand(at + 1);
        let (two, next) = self.operand(next);
        let a = self.read(one, at)?;
        let b = self.read(two, at)?;
        self.steps += 1;
        self.flags = self.fill;
        open_both(&mut self.watch);
        let holds = match self.code[at] {
            0x30 => a == b,
            0x31 => a != b,
            0x32 => a <= b,
            0x33 => a >= b,
            0x34 => a < b,
            _ => a > b,
        };
        Ok((holds, next))
    }

    fn rounds(&mut self, at: usize, fuel: u32) -> Result<usize, Stop> {
        let mut left = fuel;
        while left != 0 {
            let (holds, next) = self.compare(at + 5)?;
            if !holds {
                return Ok(next + self.u32_at(at + 1));
            }
            left -= 1;
            self.eval(next, left)?;
        }
        Err(Stop::Spent(at))
    }

    fn instruction(&mut self, at: usize) -> Result<usize, Stop> {
        self.may_step(at)?;
        let next = match self.code[at] {
            0x03 => self.add_lea(at),
            0x08 => self.mul(at),
            0x09 => self.mulx(at),
            0x0f..=0x12 | 0x14 => self.lanes(at),
            0x13 | 0x18 => self.shuffle(at),
            0x15 => self.extract(at),
            0x16 | 0x17 => self.insert(at),
            0x19..=0x1b => self.count(at),
            _ => self.two(at),
        }?;
        self.steps += 1;
        see(&mut self.watch, self.code[at], self.evaluation, at);
        Ok(next)
    }

    /// Runs the code at a place, and answers the place behind it.
    pub fn eval(&mut self, at: usize, fuel: u32) -> Result<usize, Stop> {
        match self.code[at] {
            0x20 => {
                let mut here = at + 5;
                let end = here + self.u32_at(at + 1);
                while here < end {
                    here = self.eval(here, fuel)?;
                }
                Ok(end)
            }
            0x21 => {
                let (holds, next) = self.compare(at + 9)?;
                let mid = next + self.u32_at(at + 1);
                let end = mid + self.u32_at(at + 5);
                self.eval(if holds { next } else { mid }, fuel)?;
                Ok(end)
            }
            0x22 => self.rounds(at, fuel),
            _ => self.instruction(at),
        }
    }
}
