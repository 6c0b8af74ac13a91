//! Memory operands at and beyond the ends of the 64-bit range, as today's rule has
//! them and as last year's had them.

use super::stage::{BASE, INDEX, TOP};
use crate::reader::Rule;
use crate::tree::{Maddr, Operand};

/// A memory operand, and what the registers of its address hold.
#[derive(Clone, Copy)]
pub struct Form {
    pub operand: Operand,
    pub base: u64,
    pub index: u64,
}

const fn near(base: u64, offset: i64) -> Form {
    Form {
        operand: Operand::Mem(Maddr::Reg(BASE, offset)),
        base,
        index: 0,
    }
}

const fn far(base: u64, scale: i16, index: u64, offset: i64) -> Form {
    Form {
        operand: Operand::Mem(Maddr::Index(BASE, scale, INDEX, offset)),
        base,
        index,
    }
}

/// The forms by where they lead: -1, -8 and further down; 2^64 and further up;
/// 2^64-1, which is still in the range but without a cell; and 0 and 2^64-8, where
/// the cells are, also if a part of the sum is out of the range.
pub struct Forms {
    pub below: [Form; 11],
    pub above: [Form; 11],
    pub last: [Form; 7],
    pub home: [Form; 8],
}

impl Forms {
    pub fn by(rule: Rule) -> Forms {
        match rule {
            Rule::Today => TODAYS,
            Rule::LastYear => LAST_YEARS,
        }
    }
}

/// No scale is negative or 0: only an offset leads down, by 2^63 at most, and only
/// an index of 0 adds nothing.
const TODAYS: Forms = Forms {
    below: [
        near(0, -1),
        near(0, -8),
        far(0, 2, 1, -3),
        far(8, 8, 2, -32),
        far(8, 4, 8, -41),
        far(0, 1, 7, -8),
        far(0, 8, 0, -8),
        far(0, 2, 0, i64::MIN),
        far((1 << 62) - 1, 1, 1 << 62, i64::MIN),
        far(1 << 61, 4, 1 << 60, i64::MIN),
        far(0, 8, (1 << 60) - 1, i64::MIN),
    ],
    above: [
        near(TOP, 1),
        near(TOP, i64::MAX),
        far(TOP - 7, 8, 1, 0),
        far(TOP - 8, 1, 8, 1),
        far(TOP, 2, 7, -13),
        far(TOP, 4, 0, 1),
        far(0, 2, 1 << 63, 0),
        far(TOP - 7, 2, 1 << 63, 0),
        far(0, 4, 1 << 63, 0),
        far(TOP, 1, TOP, -6),
        far(TOP, 8, TOP, i64::MIN),
    ],
    last: [
        near(TOP, 0),
        near(TOP - 1, 1),
        far(TOP - 8, 8, 1, 0),
        far(TOP, 1, 8, -8),
        far(TOP, 2, 8, -16),
        far(TOP, 4, 0, 0),
        far(0, 1, TOP, 0),
    ],
    home: [
        near(1, -1),
        near(TOP, -7),
        far(8, 8, 1, -16),
        far(TOP - 15, 8, 1, 0),
        far(0, 4, 2, -8),
        far(TOP, 1, 1, -8),
        far(1 << 62, 2, 1 << 61, i64::MIN),
        far(TOP - 7, 2, 0, 0),
    ],
};

const LAST_YEARS: Forms = Forms {
    below: [
        near(0, -1),
        near(0, -8),
        far(0, -1, 1, 0),
        far(8, -8, 2, 0),
        far(8, -1, 8, -1),
        far(0, 1, 7, -8),
        far(0, 0, TOP, -8),
        far(0, -2, 1 << 63, 0),
        far(TOP - 7, -2, 1 << 63, 0),
        far(TOP - 7, -4, 1 << 63, 0),
        far(TOP, -32_768, TOP, i64::MAX),
    ],
    above: [
        near(TOP, 1),
        near(TOP, i64::MAX),
        far(TOP - 7, 8, 1, 0),
        far(TOP - 8, 1, 8, 1),
        far(TOP, -1, 7, 8),
        far(TOP, 0, TOP, 1),
        far(0, 2, 1 << 63, 0),
        far(TOP - 7, 2, 1 << 63, 0),
        far(0, 4, 1 << 63, 0),
        far(TOP, 1, TOP, -6),
        far(TOP, 32_767, TOP, i64::MIN),
    ],
    last: [
        near(TOP, 0),
        near(TOP - 1, 1),
        far(TOP - 8, 8, 1, 0),
        far(TOP, 1, 8, -8),
        far(TOP, -1, 8, 8),
        far(TOP, 0, TOP, 0),
        far(0, 1, TOP, 0),
    ],
    home: [
        near(1, -1),
        near(TOP, -7),
        far(8, -8, 1, 0),
        far(TOP - 15, 8, 1, 0),
        far(0, -1, 8, 8),
        far(TOP, 1, 1, -8),
        far(TOP, -1, TOP, 0),
        far(TOP - 7, 0, TOP, 0),
    ],
};
