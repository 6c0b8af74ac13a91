//! The source's `eval_ins`. Words are worked out over whole numbers and then
//! brought back with a remainder, as the source does. Popcnt64, Lzcnt64 and
//! Tzcnt64, which it does not have, go by request 2026-02 in its manner, and on
//! the board the flags of Add64 and AddCarry64 by request 2026-06.

use crate::flags::*;
use crate::follow::Follow;
use crate::state::*;
use crate::sums::{Adder, Sum};
use crate::terms::Evaluation;
use crate::tree::Instruction::*;
use crate::tree::*;

const POW2_32: u64 = 1 << 32;
const POW2_64: u128 = 1 << 64;
/// What a word can stand for as a signed number.
const SIGNED: std::ops::Range<i128> = -(1 << 63)..1 << 63;

/// One instruction under way.
struct Step<'a> {
    f: &'a mut Follow,
    place: usize,
    /// The source's `s`: the state that the instruction met.
    s: State,
    /// The state that one step hands to the next.
    now: State,
}

pub fn eval_ins(ins: &Instruction, place: usize, s: State, f: &mut Follow) -> State {
    f.met[number(ins) - 1] += 1;
    let (now, regs) = (s.clone(), s.regs);
    let mut step = Step { f, place, s, now };
    // The registers that the instruction met: only Mulx64 writes one before its last check.
    let at = |o: Operand| locate(o, &regs);
    match *ins {
        Mov64(dst, src) => step.mov64(at(dst), at(src)),
        Add64(dst, src) => step.add(at(dst), at(src), None),
        AddLea64(dst, src1, src2) => step.add_lea64(at(dst), at(src1), at(src2)),
        AddCarry64(dst, src) => step.add(at(dst), at(src), Some(cf)),
        Adcx64(dst, src) => step.add_with(at(dst), at(src), cf, update_cf),
        Adox64(dst, src) => step.add_with(at(dst), at(src), overflow, update_of),
        Sub64(dst, src) => step.two_words(at(dst), at(src), |a, b| a + POW2_64 - b),
        Mul64(src) => step.mul64(at(src)),
        Mulx64(dst_hi, dst_lo, src) => step.mulx64(dst_hi, at(dst_lo), at(src)),
        IMul64(dst, src) => step.two_words(at(dst), at(src), |a, b| a * b),
        Xor64(dst, src) => step.xor64(at(dst), at(src)),
        And64(dst, src) => step.two_words(at(dst), at(src), |a, b| a & b),
        Shr64(dst, amt) => step.shift64(at(dst), at(amt), ishr64),
        Shl64(dst, amt) => step.shift64(at(dst), at(amt), ishl64),
        Paddd(dst, src) => step.paddd(dst, src),
        Pxor(dst, src) => step.two_quads(dst, src, |a, b| a ^ b),
        Pslld(dst, amt) => step.shift32(dst, amt, ishl32),
        Psrld(dst, amt) => step.shift32(dst, amt, ishr32),
        Pshufd(dst, src, permutation) => step.pshufd(dst, src, permutation),
        Pcmpeqd(dst, src) => step.two_quads(dst, src, eq_result),
        Pextrq(dst, src, index) => step.pextrq(at(dst), src, index),
        Pinsrd(dst, src, index) => step.pinsrd(dst, at(src), index),
        Pinsrq(dst, src, index) => step.pinsrq(dst, at(src), index),
        Vpslldq(dst, src, count) => step.vpslldq(dst, src, count),
        Popcnt64(dst, src) => step.popcnt64(at(dst), at(src)),
        Lzcnt64(dst, src) => step.zeros64(at(dst), at(src), zeros_from_the_top),
        Tzcnt64(dst, src) => step.zeros64(at(dst), at(src), zeros_from_the_bottom),
    }
    step.keep_sum(ins);
    step.now
}

/// An instruction's number, from 1: its kind byte.
pub fn number(ins: &Instruction) -> usize {
    match ins {
        Mov64(..) => 1,
        Add64(..) => 2,
        AddLea64(..) => 3,
        AddCarry64(..) => 4,
        Adcx64(..) => 5,
        Adox64(..) => 6,
        Sub64(..) => 7,
        Mul64(..) => 8,
        Mulx64(..) => 9,
        IMul64(..) => 10,
        Xor64(..) => 11,
        And64(..) => 12,
        Shr64(..) => 13,
        Shl64(..) => 14,
        Paddd(..) => 15,
        Pxor(..) => 16,
        Pslld(..) => 17,
        Psrld(..) => 18,
        Pshufd(..) => 19,
        Pcmpeqd(..) => 20,
        Pextrq(..) => 21,
        Pinsrd(..) => 22,
        Pinsrq(..) => 23,
        Vpslldq(..) => 24,
        Popcnt64(..) => 25,
        Lzcnt64(..) => 26,
        Tzcnt64(..) => 27,
    }
}

// Checks and updates.
impl Step<'_> {
    /// A check that fails is logged with the state the instruction met.
    fn check(&mut self, judged: Judged) {
        self.now.ok &= self.f.log.check(judged, self.place, &self.s);
    }

    fn check_source(&mut self, src: Located) {
        self.check(valid_operand(src, &self.now));
    }

    /// One check in the source; its number tells which half of it failed.
    fn check_shift(&mut self, amt: Located) {
        let in_width = demand(self.f.operand(amt, &self.now) < 64, 33);
        self.check(valid_operand(amt, &self.now).and(in_width));
    }

    fn update_preserving_flags(&mut self, dst: Located, value: u64) {
        self.check(valid_dst_operand(dst, &self.now));
        update_operand(dst, value, &mut self.now);
    }

    fn update(&mut self, dst: Located, value: u64) {
        self.update_preserving_flags(dst, value);
        self.havoc_flags();
    }

    fn havoc_flags(&mut self) {
        self.now.flags = Flags::filled(self.f.settings.fill);
    }

    fn clear_cf_and_of(&mut self) {
        self.now.flags = update_cf(update_of(self.now.flags, false), false);
    }

    fn update_xmm(&mut self, dst: Xmm, value: Quad) {
        self.now.xmms[usize::from(dst)] = value;
    }

    /// For the tallies: a sum that passed its checks, with nothing bad before it.
    fn keep_sum(&mut self, ins: &Instruction) {
        if !self.f.log.bad.is_empty() {
            return;
        }
        let step = self.f.steps_made;
        let (adder, dst, src) = match *ins {
            Add64(dst, src) => (Adder::Add64, dst, src),
            AddCarry64(dst, src) => (Adder::AddCarry64, dst, src),
            Adox64(..) => return self.f.sums.read_at(step),
            _ => return,
        };
        let words = [dst, src].map(|o| self.f.operand(locate(o, &self.s.regs), &self.s));
        let (before, after) = (self.s.flags.word, self.now.flags.word);
        let sum = Sum::new(adder, words, before, self.f.settings.fill, after);
        self.f.sums.add(step, sum);
    }

    /// A flag that goes into the sum. Whether that counts is settled when the
    /// instruction completes.
    fn added(&mut self, flag: fn(Flags) -> Flag) -> bool {
        let Flag { set, open } = flag(self.s.flags);
        if open {
            self.f.reads.reads_open(self.place);
        }
        set
    }

    fn wide(&self, o: Located) -> u128 {
        u128::from(self.f.operand(o, &self.s))
    }

    fn reg(&self, r: Reg) -> u128 {
        u128::from(self.s.regs[usize::from(r)])
    }

    fn quad(&self, x: Xmm) -> Quad {
        self.s.xmms[usize::from(x)]
    }
}

// General instructions.
impl Step<'_> {
    fn mov64(&mut self, dst: Located, src: Located) {
        self.check_source(src);
        self.update_preserving_flags(dst, low(self.wide(src)));
    }

    /// Add64 and AddCarry64, whose flags the evaluation decides.
    fn add(&mut self, dst: Located, src: Located, carry: Option<fn(Flags) -> Flag>) {
        self.check_source(src);
        let old_carry = carry.is_some_and(|flag| self.added(flag));
        let operands = [self.wide(dst), self.wide(src)];
        let sum = operands[0] + operands[1] + u128::from(old_carry);
        self.update(dst, low(sum));
        let new_carry = sum >= POW2_64;
        self.now.flags = match self.f.settings.terms.evaluation {
            Evaluation::Base => update_cf(self.s.flags, new_carry),
            Evaluation::Board => {
                let [a, b] = operands.map(signed);
                let leaves = !SIGNED.contains(&(a + b + i128::from(old_carry)));
                let filled = Flags::filled(self.f.settings.fill);
                update_cf(update_of(filled, leaves), new_carry)
            }
        };
    }

    /// Adcx64 and Adox64: `carry` is the flag added and `set` the flag
    /// written, both over the old flags.
    fn add_with(
        &mut self,
        dst: Located,
        src: Located,
        carry: fn(Flags) -> Flag,
        set: fn(Flags, bool) -> Flags,
    ) {
        self.check_source(src);
        let old_carry = u128::from(self.added(carry));
        let sum = self.wide(dst) + self.wide(src) + old_carry;
        self.update(dst, low(sum));
        self.now.flags = set(self.s.flags, sum >= POW2_64);
    }

    fn add_lea64(&mut self, dst: Located, src1: Located, src2: Located) {
        self.check_source(src1);
        self.check_source(src2);
        self.update_preserving_flags(dst, low(self.wide(src1) + self.wide(src2)));
    }

    fn two_words(&mut self, dst: Located, src: Located, work: fn(u128, u128) -> u128) {
        self.check_source(src);
        self.update(dst, low(work(self.wide(dst), self.wide(src))));
    }

    fn xor64(&mut self, dst: Located, src: Located) {
        self.two_words(dst, src, |a, b| a ^ b);
        self.clear_cf_and_of();
    }

    fn mul64(&mut self, src: Located) {
        self.check_source(src);
        let product = self.reg(RAX) * self.wide(src);
        self.now.regs[usize::from(RAX)] = low(product);
        self.now.regs[usize::from(RDX)] = low(product / POW2_64);
        self.havoc_flags();
    }

    /// The high destination is found after the low half is written, which may have
    /// gone to a register of its address.
    fn mulx64(&mut self, dst_hi: Operand, dst_lo: Located, src: Located) {
        self.check_source(src);
        let product = self.reg(RDX) * self.wide(src);
        self.update_preserving_flags(dst_lo, low(product));
        let dst_hi = locate(dst_hi, &self.now.regs);
        self.update_preserving_flags(dst_hi, low(product / POW2_64));
    }

    fn shift64(&mut self, dst: Located, amt: Located, shift: fn(u64, u64) -> u64) {
        self.check_shift(amt);
        let (value, amount) = (self.wide(dst), self.wide(amt));
        self.update(dst, shift(low(value), low(amount)));
    }

    fn popcnt64(&mut self, dst: Located, src: Located) {
        self.count64(dst, src, ones);
        self.clear_cf_and_of();
    }

    /// Lzcnt64 and Tzcnt64. The source is the one that the instruction met,
    /// also where the count has gone to the same place.
    fn zeros64(&mut self, dst: Located, src: Located, zeros: fn(u64) -> u64) {
        self.count64(dst, src, zeros);
        self.now.flags = update_cf(self.now.flags, self.wide(src) == 0);
    }

    /// The destination is written and not read.
    fn count64(&mut self, dst: Located, src: Located, count: fn(u64) -> u64) {
        self.check_source(src);
        self.update(dst, count(low(self.wide(src))));
    }
}

// Instructions of the xmm registers.
impl Step<'_> {
    fn paddd(&mut self, dst: Xmm, src: Xmm) {
        self.two_quads(dst, src, |a, b| {
            ((u64::from(a) + u64::from(b)) % POW2_32) as u32
        });
        self.havoc_flags();
    }

    fn two_quads(&mut self, dst: Xmm, src: Xmm, work: fn(u32, u32) -> u32) {
        let (d, s) = (self.quad(dst), self.quad(src));
        let worked = [
            work(d[0], s[0]),
            work(d[1], s[1]),
            work(d[2], s[2]),
            work(d[3], s[3]),
        ];
        self.update_xmm(dst, worked);
    }

    fn shift32(&mut self, dst: Xmm, amt: u8, shift: fn(u32, u8) -> u32) {
        self.check(demand(amt < 32, 34));
        self.update_xmm(dst, self.quad(dst).map(|word| shift(word, amt)));
    }

    fn pshufd(&mut self, dst: Xmm, src: Xmm, permutation: u8) {
        let q = self.quad(src);
        let select = |n: u8| q[usize::from(n % 4)];
        let permuted = [
            select(permutation),
            select(permutation / 4),
            select(permutation / 16),
            select(permutation / 64),
        ];
        self.update_xmm(dst, permuted);
    }

    fn pextrq(&mut self, dst: Located, src: Xmm, index: u8) {
        let [lo0, lo1, hi2, hi3] = self.quad(src).map(u64::from);
        let (lo, hi) = match index % 2 {
            0 => (lo0, lo1),
            _ => (hi2, hi3),
        };
        self.update_preserving_flags(dst, lo + hi * POW2_32);
    }

    fn pinsrd(&mut self, dst: Xmm, src: Located, index: u8) {
        self.check_source(src);
        let mut q = self.quad(dst);
        q[usize::from(index % 4)] = (low(self.wide(src)) % POW2_32) as u32;
        self.update_xmm(dst, q);
    }

    fn pinsrq(&mut self, dst: Xmm, src: Located, index: u8) {
        self.check_source(src);
        let value = low(self.wide(src));
        let (lo, hi) = ((value % POW2_32) as u32, (value / POW2_32) as u32);
        let [lo0, lo1, hi2, hi3] = self.quad(dst);
        let inserted = match index % 2 {
            0 => [lo, hi, hi2, hi3],
            _ => [lo0, lo1, lo, hi],
        };
        self.update_xmm(dst, inserted);
    }

    fn vpslldq(&mut self, dst: Xmm, src: Xmm, count: u8) {
        self.check(demand(count == 4, 35));
        let [lo0, lo1, hi2, _] = self.quad(src);
        self.update_xmm(dst, [0, lo0, lo1, hi2]);
    }
}

fn low(n: u128) -> u64 {
    (n % POW2_64) as u64
}

/// A word as two's complement reads it.
fn signed(word: u128) -> i128 {
    let n = word as i128;
    if SIGNED.contains(&n) {
        n
    } else {
        n - (1 << 64)
    }
}

fn eq_result(a: u32, b: u32) -> u32 {
    if a == b {
        0xffff_ffff
    } else {
        0
    }
}

// Shifts after FStar.UInt: times or divided by a power of two; 0 from the
// width on, where the exact power would only be larger.
fn ishl64(value: u64, amount: u64) -> u64 {
    if amount >= 64 {
        return 0;
    }
    low(u128::from(value) * (1u128 << amount))
}

fn ishr64(value: u64, amount: u64) -> u64 {
    if amount >= 64 {
        return 0;
    }
    value / (1 << amount)
}

fn ishl32(value: u32, amount: u8) -> u32 {
    (ishl64(u64::from(value), u64::from(amount)) % POW2_32) as u32
}

fn ishr32(value: u32, amount: u8) -> u32 {
    ishr64(u64::from(value), u64::from(amount)) as u32
}

// Counts, one bit after the other.
fn is_one(value: u64, place: u32) -> bool {
    value / (1 << place) % 2 == 1
}

fn ones(value: u64) -> u64 {
    let mut count = 0;
    for place in 0..64 {
        if is_one(value, place) {
            count += 1;
        }
    }
    count
}

fn zeros_from_the_top(value: u64) -> u64 {
    zeros_ahead_of_a_one(value, (0..64).rev())
}

fn zeros_from_the_bottom(value: u64) -> u64 {
    zeros_ahead_of_a_one(value, 0..64)
}

fn zeros_ahead_of_a_one(value: u64, places: impl Iterator<Item = u32>) -> u64 {
    let mut count = 0;
    for place in places {
        if is_one(value, place) {
            break;
        }
        count += 1;
    }
    count
}

#[cfg(test)]
#[path = "instructions_tests.rs"]
mod tests;
