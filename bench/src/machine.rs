//! The machine that decoded code runs on: the state, and what becomes of it once operands are known. A fault is its
//! number alone here; its place is the interpreter's to add.

use crate::encode::{RAX, RDX};
use crate::plain::{added, counted, sum, with_bit};
use pokchrei::{Evaluation, Watch};

/// A start, which becomes the end, and the cells that were lent.
pub struct Machine<'a> {
    pub addresses: &'a [u64],
    pub tags: &'a [u8],
    pub values: &'a mut [u64],
    pub regs: [u64; 16],
    pub xmms: [[u32; 4]; 16],
    pub flags: u64,
    pub fill: u64,
    pub limit: u64,
    pub evaluation: Evaluation,
    pub steps: u64,
    pub watch: Watch,
}

/// A destination that can be written.
#[derive(Clone, Copy)]
pub enum Slot {
    Reg(u8),
    Cell(usize),
}

/// The index of a register. Accepted code names 0 to 15; the mask tells the compiler, which then checks no bound.
pub fn number(r: u8) -> usize {
    usize::from(r & 15)
}

/// The word and the flags that an instruction of this kind leaves of two words, the flags and the fill word.
#[inline(always)]
fn result(kind: u8, evaluation: Evaluation, a: u64, b: u64, flags: u64, fill: u64) -> (u64, u64) {
    match kind {
        0x01 => (b, flags),
        0x02 => added(evaluation, a, b, false, flags, fill),
        0x04 => added(evaluation, a, b, flags & 1 == 1, flags, fill),
        0x05 => {
            let (v, c) = sum(a, b, flags & 1 == 1);
            (v, with_bit(flags, 0, c))
        }
        0x06 => {
            let (v, c) = sum(a, b, flags >> 11 & 1 == 1);
            (v, with_bit(flags, 11, c))
        }
        0x07 => (a.wrapping_sub(b), fill),
        0x0a => (a.wrapping_mul(b), fill),
        0x0b => (a ^ b, fill & !(1 | 1 << 11)),
        0x0c => (a & b, fill),
        0x0d => (a >> b, fill),
        0x0e => (a << b, fill),
        _ => counted(kind, b, fill),
    }
}

/// The exact address of an MIndex, where it is one.
pub fn indexed(base: u64, scale: i16, index: u64, offset: i64) -> Option<u64> {
    let scaled = i128::from(scale) * i128::from(index);
    u64::try_from(i128::from(base) + scaled + i128::from(offset)).ok()
}

/// Whether a comparison of this kind holds.
pub fn holds(kind: u8, a: u64, b: u64) -> bool {
    match kind {
        0x30 => a == b,
        0x31 => a != b,
        0x32 => a <= b,
        0x33 => a >= b,
        0x34 => a < b,
        _ => a > b,
    }
}

// Registers and cells.
impl Machine<'_> {
    /// The 64-bit cell at an address, or the number of the check: 36 where there is none, else that of an absent cell.
    pub fn cell(&self, address: Option<u64>, absent: u8) -> Result<usize, u8> {
        let address = address.ok_or(36)?;
        match self.addresses.binary_search(&address) {
            Ok(i) if self.tags[i] == 64 => Ok(i),
            _ => Err(absent),
        }
    }

    #[inline(always)]
    pub fn word(&mut self, slot: Slot) -> &mut u64 {
        match slot {
            Slot::Reg(r) => &mut self.regs[number(r)],
            Slot::Cell(i) => &mut self.values[i],
        }
    }
}

// Instructions on words.
impl Machine<'_> {
    #[inline(always)]
    pub fn two(&mut self, kind: u8, slot: Slot, b: u64) {
        let (evaluation, flags, fill) = (self.evaluation, self.flags, self.fill);
        let word = self.word(slot);
        (*word, self.flags) = result(kind, evaluation, *word, b, flags, fill);
    }

    pub fn mul(&mut self, b: u64) {
        let product = u128::from(self.regs[number(RAX)]) * u128::from(b);
        self.regs[number(RAX)] = product as u64;
        self.regs[number(RDX)] = (product >> 64) as u64;
        self.flags = self.fill;
    }

    /// `high` resolves its destination with the registers as the low half leaves them. Nothing is written before that.
    pub fn mulx(
        &mut self,
        b: u64,
        low: Slot,
        high: impl FnOnce(&Self, &[u64; 16]) -> Result<Slot, u8>,
    ) -> Result<(), u8> {
        let product = u128::from(self.regs[number(RDX)]) * u128::from(b);
        let mut regs = self.regs;
        if let Slot::Reg(r) = low {
            regs[number(r)] = product as u64;
        }
        let high = high(self, &regs)?;
        *self.word(low) = product as u64;
        *self.word(high) = (product >> 64) as u64;
        Ok(())
    }
}

// Instructions on lanes.
impl Machine<'_> {
    /// `src` is an xmm number or, for the shifts, an amount.
    pub fn lanes(&mut self, kind: u8, dst: u8, src: u8) -> Result<(), u8> {
        let other = self.xmms[number(src)];
        let quad = &mut self.xmms[number(dst)];
        match kind {
            0x0f => {
                (0..4).for_each(|j| quad[j] = quad[j].wrapping_add(other[j]));
                self.flags = self.fill;
            }
            0x10 => (0..4).for_each(|j| quad[j] ^= other[j]),
            0x11 | 0x12 if src > 31 => return Err(34),
            0x11 => quad.iter_mut().for_each(|w| *w <<= src),
            0x12 => quad.iter_mut().for_each(|w| *w >>= src),
            _ => (0..4).for_each(|j| quad[j] = if quad[j] == other[j] { u32::MAX } else { 0 }),
        }
        Ok(())
    }

    pub fn shuffle(&mut self, kind: u8, dst: u8, src: u8, imm: u8) -> Result<(), u8> {
        let q = self.xmms[number(src)];
        let quad = &mut self.xmms[number(dst)];
        if kind == 0x13 {
            (0..4).for_each(|j| quad[j] = q[usize::from(imm >> (2 * j) & 3)]);
        } else if imm != 4 {
            return Err(35);
        } else {
            *quad = [0, q[0], q[1], q[2]];
        }
        Ok(())
    }

    /// The word that a Pextrq takes out.
    pub fn extracted(&self, src: u8, index: u8) -> u64 {
        let q = self.xmms[number(src)];
        let i = usize::from(index % 2 * 2);
        u64::from(q[i]) | u64::from(q[i + 1]) << 32
    }

    pub fn insert(&mut self, kind: u8, dst: u8, index: u8, word: u64) {
        let quad = &mut self.xmms[number(dst)];
        if kind == 0x16 {
            quad[usize::from(index % 4)] = word as u32;
        } else {
            let i = usize::from(index % 2 * 2);
            quad[i] = word as u32;
            quad[i + 1] = (word >> 32) as u32;
        }
    }
}
