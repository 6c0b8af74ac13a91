//! What sums give and the flags that they leave on the board, typed by hand for
//! the tests of both machines. Neither machine's rule is used.

use crate::tree::Instruction::{Add64, AddCarry64};
use crate::tree::OfTwo;

/// The ends of the signed numbers as words, 2^63-1 and -2^63; and -1.
const MAX: u64 = 9_223_372_036_854_775_807;
const MIN: u64 = 9_223_372_036_854_775_808;
const TOP: u64 = 18_446_744_073_709_551_615;

const HALF: u64 = 4_611_686_018_427_387_904;
const MINUS_HALF: u64 = 13_835_058_055_282_163_712;

#[derive(Clone, Copy, Debug, PartialEq)]
pub struct Sum {
    pub word: u64,
    pub carry: bool,
    pub overflow: bool,
}

/// The word, then 1 for a carry, then 1 for an overflow.
type Typed = (u64, u8, u8);

/// Two operands, their sum, and their sum and 1.
const SUMS: [(u64, u64, Typed, Typed); 23] = [
    (0, 0, (0, 0, 0), (1, 0, 0)),
    (1, 1, (2, 0, 0), (3, 0, 0)),
    // Up to 2^63-1, where one more leaves, and past it.
    (MAX, 0, (MAX, 0, 0), (MIN, 0, 1)),
    (0, MAX, (MAX, 0, 0), (MIN, 0, 1)),
    (HALF, HALF - 1, (MAX, 0, 0), (MIN, 0, 1)),
    (MAX, 1, (MIN, 0, 1), (MIN + 1, 0, 1)),
    (HALF, HALF, (MIN, 0, 1), (MIN + 1, 0, 1)),
    (MAX, MAX, (TOP - 1, 0, 1), (TOP, 0, 1)),
    // Down to -2^63, and past it, where one more comes back.
    (MINUS_HALF, MINUS_HALF, (MIN, 1, 0), (MIN + 1, 1, 0)),
    (MIN + 1, TOP, (MIN, 1, 0), (MIN + 1, 1, 0)),
    (MIN, TOP, (MAX, 1, 1), (MIN, 1, 0)),
    (TOP, MIN, (MAX, 1, 1), (MIN, 1, 0)),
    (MIN + 1, TOP - 1, (MAX, 1, 1), (MIN, 1, 0)),
    (MIN, MIN, (0, 1, 1), (1, 1, 1)),
    (TOP, TOP, (TOP - 1, 1, 0), (TOP, 1, 0)),
    // Of two signs.
    (MAX, MIN, (TOP, 0, 0), (0, 1, 0)),
    (MIN, MAX, (TOP, 0, 0), (0, 1, 0)),
    (MAX, TOP, (MAX - 1, 1, 0), (MAX, 1, 0)),
    (1, MIN, (MIN + 1, 0, 0), (MIN + 2, 0, 0)),
    (TOP, 1, (0, 1, 0), (1, 1, 0)),
    (1, TOP, (0, 1, 0), (1, 1, 0)),
    (TOP, 0, (TOP, 0, 0), (0, 1, 0)),
    (MIN, 0, (MIN, 0, 0), (MIN + 1, 0, 0)),
];

/// Two operands with their sum, without and with a carry from before.
pub fn sums() -> Vec<(u64, u64, [Sum; 2])> {
    let sum = |(word, carry, overflow)| Sum {
        word,
        carry: carry == 1,
        overflow: overflow == 1,
    };
    let row = |(dst, src, without, with)| (dst, src, [sum(without), sum(with)]);
    SUMS.map(row).into()
}

/// A fill word, then the flags over it with neither carry nor overflow, with
/// carry, with overflow, with both.
const FLAGS: [(u64, [u64; 4]); 8] = [
    (0, [0, 1, 2048, 2049]),
    (1, [0, 1, 2048, 2049]),
    (2048, [0, 1, 2048, 2049]),
    (2049, [0, 1, 2048, 2049]),
    (TOP, [TOP - 2049, TOP - 2048, TOP - 1, TOP]),
    (TOP - 1, [TOP - 2049, TOP - 2048, TOP - 1, TOP]),
    (TOP - 2048, [TOP - 2049, TOP - 2048, TOP - 1, TOP]),
    (MIN + 4098, [MIN + 4098, MIN + 4099, MIN + 6146, MIN + 6147]),
];

/// Fill words, each with the flags that a sum leaves over it.
pub fn over_fills(sum: Sum) -> Vec<(u64, u64)> {
    let place = usize::from(sum.carry) + 2 * usize::from(sum.overflow);
    FLAGS.map(|(fill, flags)| (fill, flags[place])).into()
}

/// Flags before a sum: neither, carry, overflow, both, then with others too.
pub const OLD: [u64; 7] = [0, 1, 2048, 2049, TOP, TOP - 1, 4];

/// Flags before, an instruction, and which of the two sums it makes then.
pub fn adders() -> Vec<(u64, OfTwo, usize)> {
    let carry = |old: u64| usize::from(old % 2 == 1);
    let both = |old| [(old, Add64 as OfTwo, 0), (old, AddCarry64, carry(old))];
    OLD.into_iter().flat_map(both).collect()
}
