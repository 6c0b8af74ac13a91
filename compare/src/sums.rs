//! What the tallies look at of the sums that a run completes: signs, carry and
//! overflow of Add64 and AddCarry64, and which overflow an Adox64 that comes
//! right behind one reads. No machine goes by this, and it has no rule: what the
//! flags became is taken as it is found.

use crate::flags::{has_carry, has_overflow};
use std::collections::BTreeMap;

/// The two whose flags the evaluation decides.
#[derive(Clone, Copy, Debug, PartialEq, Eq, PartialOrd, Ord)]
pub enum Adder {
    Add64,
    AddCarry64,
}

pub const ADDERS: [Adder; 2] = [Adder::Add64, Adder::AddCarry64];

/// The signed sum of the two operands alone, where a carry makes the difference.
#[derive(Clone, Copy, Debug, PartialEq, Eq, PartialOrd, Ord)]
pub enum Edge {
    /// 2^63-1: one more leaves the range.
    Top,
    /// -2^63-1: one more comes back into it.
    Bottom,
}

pub const EDGES: [Edge; 2] = [Edge::Top, Edge::Bottom];

fn edge([a, b]: [u64; 2]) -> Option<Edge> {
    match i128::from(a as i64) + i128::from(b as i64) {
        0x7fff_ffff_ffff_ffff => Some(Edge::Top),
        -0x8000_0000_0000_0001 => Some(Edge::Bottom),
        _ => None,
    }
}

#[derive(Clone, Copy, Debug, PartialEq, Eq, PartialOrd, Ord)]
pub struct Bits {
    pub carry: bool,
    pub overflow: bool,
}

fn bits(flags: u64) -> Bits {
    Bits {
        carry: has_carry(flags),
        overflow: has_overflow(flags),
    }
}

/// A completed sum, as far as it is looked at.
#[derive(Clone, Copy, Debug, PartialEq, Eq, PartialOrd, Ord)]
pub struct Sum {
    pub adder: Adder,
    /// Of the destination's word and of the source's.
    pub negative: [bool; 2],
    pub edge: Option<Edge>,
    pub before: Bits,
    pub fill: Bits,
    pub after: Bits,
    /// Whether flags and fill, before it, differ in any other bit.
    pub others_differ: bool,
}

impl Sum {
    /// `words` are the destination's before it and the source's.
    pub fn new(adder: Adder, words: [u64; 2], before: u64, fill: u64, after: u64) -> Sum {
        Sum {
            adder,
            negative: words.map(|word| word >> 63 == 1),
            edge: edge(words),
            before: bits(before),
            fill: bits(fill),
            after: bits(after),
            others_differ: (before ^ fill) & !2049 != 0,
        }
    }
}

/// How often each kind of sum was completed, and which overflow was read then.
#[derive(Default)]
pub struct SumLog {
    pub completed: BTreeMap<Sum, u64>,
    /// By the sum that an Adox64 came right behind.
    pub read: BTreeMap<Sum, u64>,
    /// With the number of steps up to and with it.
    last: Option<(u64, Sum)>,
}

impl SumLog {
    /// `step` counts the steps made before.
    pub fn add(&mut self, step: u64, sum: Sum) {
        *self.completed.entry(sum).or_insert(0) += 1;
        self.last = Some((step + 1, sum));
    }

    /// An Adox64 was completed.
    pub fn read_at(&mut self, step: u64) {
        if let Some((_, sum)) = self.last.filter(|(behind, _)| *behind == step) {
            *self.read.entry(sum).or_insert(0) += 1;
        }
    }
}

#[cfg(test)]
mod tests {
    use super::*;

    #[test]
    fn edges() {
        let (max, min) = (u64::MAX / 2, 1 << 63);
        let table = [
            ([max, 0], Some(Edge::Top)),
            ([1 << 62, (1 << 62) - 1], Some(Edge::Top)),
            ([max, 1], None),
            ([max - 1, 0], None),
            ([min, u64::MAX], Some(Edge::Bottom)),
            ([min + 1, u64::MAX - 1], Some(Edge::Bottom)),
            ([min, 0], None),
            ([max, min], None),
            ([min, min], None),
        ];
        for (words, expected) in table {
            assert_eq!(edge(words), expected, "{words:?}");
        }
    }

    /// Only the step right behind a sum reads it; a second Adox64 does not.
    #[test]
    fn readers() {
        let sum = |after| Sum::new(Adder::Add64, [1, 1], 0, 0, after);
        let mut log = SumLog::default();
        log.read_at(0);
        log.add(3, sum(2048));
        log.read_at(4);
        log.read_at(5);
        log.add(7, sum(0));
        log.read_at(9);
        assert_eq!(log.read, BTreeMap::from([(sum(2048), 1)]));
        let both = BTreeMap::from([(sum(2048), 1), (sum(0), 1)]);
        assert_eq!(log.completed, both);
    }
}
