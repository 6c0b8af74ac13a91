//! What the byte machine does where the run would fault, its counts, and its
//! sums by either evaluation.

use super::*;
use crate::build::{at, number, reg};
use crate::count_table::{flags, words};
use crate::sum_table::{adders, over_fills, sums, OLD};
use crate::terms::Evaluation::{Base, Board};

fn machine() -> Machine {
    let start = Start {
        flags: 0,
        regs: [0; 16],
        xmms: [[0; 4]; 16],
    };
    Machine::new(&start, 5, Base, ByteMemory::new(1, &[]))
}

fn one(ins: Instruction) -> Code {
    Code::unplaced(Node::Ins(ins))
}

#[test]
fn addresses_go_around() {
    let mut m = machine();
    m.regs[1] = u64::MAX;
    let store = Mov64(
        Operand::Mem(Maddr::Reg(1, -2)),
        Operand::Const(0x0807_0605_0403_0201),
    );
    assert_eq!(m.run(&one(store), 0), Ok(()));
    let spelled = [u64::MAX - 2, u64::MAX - 1, u64::MAX, 0, 1, 2, 3, 4];
    assert_eq!(spelled.map(|a| m.memory.byte(a)), [1, 2, 3, 4, 5, 6, 7, 8]);
    m.regs[2] = 3;
    let load = Mov64(Operand::Reg(0), Operand::Mem(Maddr::Index(2, -2, 2, 0)));
    assert_eq!(m.run(&one(load), 0), Ok(()));
    assert_eq!(m.regs[0], 0x0807_0605_0403_0201);
}

#[test]
fn destinations_and_amounts_that_fault_in_a_run() {
    let mut m = machine();
    m.flags = 1;
    let constant = Add64(Operand::Const(u64::MAX), Operand::Const(2));
    assert_eq!(m.run(&one(constant), 0), Ok(()));
    assert_eq!((m.flags, m.regs), (1, [0; 16]));
    let rsp = Mov64(Operand::Reg(RSP), Operand::Const(7));
    assert_eq!(m.run(&one(rsp), 0), Ok(()));
    assert_eq!(m.regs[usize::from(RSP)], 7);
    for amount in [64, 1 << 32, u64::MAX] {
        m.regs[0] = u64::MAX;
        let shift = Shl64(Operand::Reg(0), Operand::Const(amount));
        assert_eq!(m.run(&one(shift), 0), Ok(()));
        assert_eq!((m.regs[0], m.flags), (0, 5));
    }
    m.xmms[0] = u128::MAX;
    assert_eq!(m.run(&one(Psrld(0, 32)), 0), Ok(()));
    assert_eq!(m.xmms[0], 0);
    m.xmms[0] = 1;
    assert_eq!(m.run(&one(Vpslldq(0, 0, 9)), 0), Ok(()));
    assert_eq!(m.xmms[0], 1 << 32);
}

#[test]
fn fuel_is_tested_first() {
    let never = Ocmp::unplaced(Relation::Lt, Operand::Const(1), Operand::Const(1));
    let nothing = Box::new(Code::unplaced(Node::Block(Vec::new())));
    let code = Code::unplaced(Node::While(never, nothing));
    assert_eq!(machine().run(&code, 0), Err(Halt::OutOfFuel));
    assert_eq!(machine().run(&code, 1), Ok(()));
}

/// Rax from 2 down to 0: three tests and two instructions.
#[test]
fn steps_are_counted_down() {
    let differs = Ocmp::unplaced(Relation::Ne, reg(0), number(0));
    let less = one(Sub64(reg(0), number(1)));
    let code = Code::unplaced(Node::While(differs, Box::new(less)));
    let halted = |most, fuel| {
        let mut m = machine();
        (m.regs[0], m.left) = (2, most);
        let halt = m.run(&code, fuel);
        (halt, m.regs[0], m.left)
    };
    assert_eq!(halted(6, 3), (Ok(()), 0, 1));
    assert_eq!(halted(5, 3), (Ok(()), 0, 0));
    let after = [2, 2, 1, 1, 0];
    for (most, rax) in after.into_iter().enumerate() {
        assert_eq!(halted(most as u64, 3), (Err(Halt::OutOfSteps), rax, 0));
    }
    assert_eq!(halted(4, 2), (Err(Halt::OutOfFuel), 0, 0));
    assert_eq!(halted(0, 0), (Err(Halt::OutOfFuel), 2, 0));
}

/// A machine with a fill word, after one instruction over a word in Rbx and
/// in the bytes at 0.
fn counted(ins: Instruction, fill: u64, old_flags: u64, word: u64) -> Machine {
    let mut m = machine();
    (m.fill, m.flags, m.regs[1]) = (fill, old_flags, word);
    m.memory.spell(0, word, 8);
    assert_eq!(m.run(&one(ins), 0), Ok(()));
    m
}

#[test]
fn counts_of_every_kind_of_source() {
    for (word, expected) in words() {
        for (count, expected) in COUNTS.into_iter().zip(expected) {
            for src in [reg(1), number(word), at(0)] {
                let m = counted(count(reg(0), src), 5, 0, word);
                assert_eq!(m.regs[..2], [expected, word]);
                let m = counted(count(at(0), src), 5, 0, word);
                assert_eq!(m.memory.gather(0, 8), expected);
            }
            let m = counted(count(reg(1), reg(1)), 0, 0, word);
            let apart = counted(count(reg(0), reg(1)), 0, 0, word);
            assert_eq!((m.regs[1], m.flags), (expected, apart.flags));
        }
    }
}

#[test]
fn flags_of_counts_come_from_the_fill_word() {
    for (fill, word, expected) in flags() {
        for old in [0, 1, 2048, 2049, u64::MAX] {
            for (count, expected) in COUNTS.into_iter().zip(expected) {
                for dst in [reg(0), at(8), number(3), reg(RSP)] {
                    let m = counted(count(dst, reg(1)), fill, old, word);
                    assert_eq!(m.flags, expected, "fill {fill}, source {word}");
                }
            }
        }
    }
}

#[test]
fn counts_where_a_run_would_fault() {
    for (count, expected) in COUNTS.into_iter().zip([2, 62, 0]) {
        let m = counted(count(number(9), number(3)), 0, 0, 8);
        let untouched = counted(Mov64(reg(0), number(0)), 0, 0, 8);
        assert_eq!(m.regs, untouched.regs);
        assert_eq!(m.memory.written, untouched.memory.written);
        let m = counted(count(reg(RSP), number(3)), 0, 0, 8);
        assert_eq!(m.regs[usize::from(RSP)], expected);
        let around = Operand::Mem(Maddr::Reg(1, -2));
        let m = counted(count(around, number(3)), 0, 0, 1);
        let bytes = [u64::MAX, 0, 1, 6].map(|a| m.memory.byte(a));
        assert_eq!(bytes, [expected as u8, 0, 0, 0]);
        let m = counted(count(reg(0), around), 0, 0, 1);
        let spelled = m.memory.gather(u64::MAX, 8);
        let told = counted(count(reg(0), number(spelled)), 0, 0, 1);
        assert_eq!((m.regs, m.flags), (told.regs, told.flags));
    }
}

/// A machine after one sum of Rax, or of the bytes at 0, and Rbx.
fn summed(
    ins: Instruction,
    evaluation: Evaluation,
    fill: u64,
    old: u64,
    words: [u64; 2],
) -> Machine {
    let mut m = machine();
    (m.evaluation, m.fill, m.flags) = (evaluation, fill, old);
    (m.regs[0], m.regs[1]) = (words[0], words[1]);
    m.memory.spell(0, words[0], 8);
    assert_eq!(m.run(&one(ins), 0), Ok(()));
    m
}

#[test]
fn sums_on_the_board() {
    for (dst, src, sums) in sums() {
        for (old, adder, which) in adders() {
            let sum = sums[which];
            for (fill, flags) in over_fills(sum) {
                let from = format!("{dst} and {src}, flags {old}, fill {fill}");
                for by in [reg(1), number(src)] {
                    let m = summed(adder(reg(0), by), Board, fill, old, [dst, src]);
                    assert_eq!((m.regs[0], m.flags), (sum.word, flags), "{from}");
                }
                let m = summed(adder(at(0), reg(1)), Board, fill, old, [dst, src]);
                let word = m.memory.gather(0, 8);
                assert_eq!((word, m.flags), (sum.word, flags), "{from}");
            }
        }
    }
}

/// The rule is of the words alone, wherever the sum goes.
#[test]
fn sums_where_a_run_would_fault() {
    for (dst, src, sums) in sums() {
        for (fill, flags) in over_fills(sums[0]) {
            let m = summed(Add64(number(dst), number(src)), Board, fill, 0, [7, 8]);
            assert_eq!((m.flags, &m.regs[..2]), (flags, &[7, 8][..]));
            let mut m = machine();
            (m.evaluation, m.fill) = (Board, fill);
            m.regs[usize::from(RSP)] = dst;
            assert_eq!(m.run(&one(Add64(reg(RSP), number(src))), 0), Ok(()));
            assert_eq!((m.regs[usize::from(RSP)], m.flags), (sums[0].word, flags));
        }
    }
}

#[test]
fn sums_by_the_base_keep_the_other_flags() {
    for (dst, src, sums) in sums() {
        for (old, adder, which) in adders() {
            let sum = sums[which];
            for fill in [0, u64::MAX] {
                let m = summed(adder(reg(0), reg(1)), Base, fill, old, [dst, src]);
                let flags = old / 2 * 2 + u64::from(sum.carry);
                assert_eq!((m.regs[0], m.flags), (sum.word, flags));
            }
        }
    }
}

#[test]
fn adcx_and_adox_are_the_same_by_both() {
    for (dst, src, sums) in sums() {
        for (old, fill) in OLD.map(|old| [(old, 0), (old, u64::MAX)]).concat() {
            for evaluation in [Base, Board] {
                let by_carry = sums[old as usize & 1];
                let m = summed(Adcx64(reg(0), reg(1)), evaluation, fill, old, [dst, src]);
                let flags = old / 2 * 2 + u64::from(by_carry.carry);
                assert_eq!((m.regs[0], m.flags), (by_carry.word, flags));
                let by_overflow = sums[(old >> 11) as usize & 1];
                let m = summed(Adox64(reg(0), reg(1)), evaluation, fill, old, [dst, src]);
                let kept = if old & 2048 == 0 { old } else { old - 2048 };
                let flags = kept + 2048 * u64::from(by_overflow.carry);
                assert_eq!((m.regs[0], m.flags), (by_overflow.word, flags));
            }
        }
    }
}
