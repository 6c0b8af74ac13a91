//! An upper bound of a run's steps, from its fuel, the number of its codes and
//! how deep its Whiles stand in each other.

use crate::tree::{Code, Node};

/// All codes are counted: this one, and those in parts that no run takes.
fn codes(code: &Code) -> u128 {
    1 + match &code.node {
        Node::Ins(_) => 0,
        Node::Block(children) => children.iter().map(codes).sum(),
        Node::IfElse(_, if_true, if_false) => codes(if_true) + codes(if_false),
        Node::While(_, body) => codes(body),
    }
}

/// The most Whiles that stand one inside the other; 1 for a While alone.
fn nesting(code: &Code) -> u32 {
    match &code.node {
        Node::Ins(_) => 0,
        Node::Block(children) => children.iter().map(nesting).max().unwrap_or(0),
        Node::IfElse(_, if_true, if_false) => nesting(if_true).max(nesting(if_false)),
        Node::While(_, body) => 1 + nesting(body),
    }
}

/// The bound, or none where it is 2^128 or more: no count of steps gets there.
fn bound(code: &Code, fuel: u64) -> Option<u128> {
    let power = (u128::from(fuel) + 1).checked_pow(nesting(code))?;
    power.checked_mul(codes(code))
}

pub fn holds(code: &Code, fuel: u64, steps: u64) -> bool {
    bound(code, fuel).is_none_or(|most| u128::from(steps) <= most)
}

#[cfg(test)]
mod tests {
    use super::*;
    use crate::build::{block, if_else, ins, number, repeat};
    use crate::tree::Instruction::Pxor;
    use crate::tree::{Ocmp, Relation};

    fn one() -> Code {
        ins(Pxor(0, 1))
    }

    fn nothing() -> Code {
        block(Vec::new())
    }

    fn own() -> Ocmp {
        Ocmp::unplaced(Relation::Eq, number(1), number(1))
    }

    fn looped(body: Code) -> Code {
        repeat(own(), body)
    }

    #[test]
    fn codes_and_nesting() {
        let row = block(vec![looped(one()), looped(nothing())]);
        let chosen = if_else(own(), looped(looped(one())), looped(one()));
        let through = looped(block(vec![one(), if_else(own(), one(), looped(one()))]));
        let table = [
            (one(), 1, 0),
            (nothing(), 1, 0),
            (block(vec![one(), nothing(), one()]), 4, 0),
            (if_else(own(), one(), block(vec![one()])), 4, 0),
            (looped(one()), 2, 1),
            (row, 5, 1),
            (chosen, 6, 2),
            (through, 7, 2),
            (looped(looped(looped(nothing()))), 4, 3),
        ];
        for (code, n, d) in table {
            assert_eq!((codes(&code), nesting(&code)), (n, d), "{code:?}");
        }
    }

    #[test]
    fn the_bound_of_nests() {
        let nest = |depth: usize| (0..depth).fold(one(), |code, _| looped(code));
        assert_eq!(bound(&nest(0), 9), Some(1));
        assert_eq!(bound(&nest(1), 0), Some(2));
        assert_eq!(bound(&nest(1), 9), Some(20));
        assert_eq!(bound(&nest(2), 9), Some(300));
        assert_eq!(bound(&nest(3), 2), Some(4 * 27));
        // With the largest fuel 31 Whiles make 2^992; three are still below 2^128.
        let most = u64::from(u32::MAX);
        assert_eq!(bound(&nest(3), most), Some(4 << 96));
        assert_eq!(bound(&nest(4), most), None);
        assert_eq!(bound(&nest(31), most), None);
        assert_eq!(bound(&nest(31), 1), Some(32 << 31));
    }

    #[test]
    fn a_count_at_the_bound_and_one_above() {
        let code = looped(one());
        assert!(holds(&code, 9, 20));
        assert!(!holds(&code, 9, 21));
        assert!(holds(&one(), 0, 1));
        assert!(!holds(&one(), u64::from(u32::MAX), 2));
        let deep = (0..4).fold(one(), |code, _| looped(code));
        assert!(holds(&deep, u64::from(u32::MAX), u64::MAX));
    }
}
