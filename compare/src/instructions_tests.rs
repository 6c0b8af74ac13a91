//! Popcnt64, Lzcnt64 and Tzcnt64, which document 01 has no examples of, the
//! numbers of operands that fail their checks, and sums by either evaluation.

use super::*;
use crate::build::{at, at_reg, number, reg};
use crate::cells::Cell;
use crate::count_table::{flags, words};
use crate::follow::{Event, Settings, OFF_MEM64};
use crate::sum_table::{adders, over_fills, sums, OLD};
use crate::terms::Evaluation::{Base, Board};

const RBX: Reg = 1;
const PLACE: usize = 5;
const ADDRESS: u64 = 4096;

/// Rbx and the one cell have the word.
fn holding(word: u64) -> State {
    let mut regs = [77; 16];
    regs[usize::from(RBX)] = word;
    let start = Start {
        flags: 1 << 40 | 2048,
        regs,
        xmms: [[1, 2, 3, 4]; 16],
    };
    let cell = Cell {
        address: ADDRESS,
        tag: 64,
        value: word,
    };
    State::new(&start, &[cell])
}

fn evaluated(ins: Instruction, fill: u64, s: &State) -> (State, Vec<Event>) {
    evaluated_by(Base, ins, fill, s)
}

fn evaluated_by(by: Evaluation, ins: Instruction, fill: u64, s: &State) -> (State, Vec<Event>) {
    let mut f = Follow::new(Settings::new(fill, by.unlimited()));
    let end = eval_ins(&ins, PLACE, s.clone(), &mut f);
    (end, f.log.bad)
}

/// The end of an instruction that passes its checks.
fn done(ins: Instruction, fill: u64, s: &State) -> State {
    done_by(Base, ins, fill, s)
}

fn done_by(by: Evaluation, ins: Instruction, fill: u64, s: &State) -> State {
    let (end, bad) = evaluated_by(by, ins, fill, s);
    assert_eq!((end.ok, bad), (true, vec![]), "{ins:?}");
    end
}

fn cell_of(s: &State) -> u64 {
    load_mem64(i128::from(ADDRESS), &s.mem, 0)
}

#[test]
fn counts_of_every_kind_of_source() {
    for (word, expected) in words() {
        let s = holding(word);
        for (count, expected) in COUNTS.into_iter().zip(expected) {
            for src in [reg(RBX), number(word), at(ADDRESS)] {
                let mut end = done(count(reg(RAX), src), 0, &s);
                assert_eq!(end.regs[0], expected, "{:?}", count(reg(RAX), src));
                (end.regs[0], end.flags) = (s.regs[0], s.flags);
                assert_eq!(end, s, "nothing else changes");
            }
        }
    }
}

#[test]
fn counts_go_to_where_they_came_from() {
    for (word, expected) in words() {
        let s = holding(word);
        for (count, expected) in COUNTS.into_iter().zip(expected) {
            let of_reg = done(count(reg(RBX), reg(RBX)), 0, &s);
            let of_cell = done(count(at(ADDRESS), at(ADDRESS)), 0, &s);
            let ends = (of_reg.regs[usize::from(RBX)], cell_of(&of_cell));
            assert_eq!(ends, (expected, expected));
            assert_eq!(of_reg.flags, of_cell.flags);
            let carry = done(count(reg(RAX), reg(RBX)), 0, &s).flags;
            assert_eq!(of_reg.flags, carry, "the source was read before");
        }
    }
}

#[test]
fn flags_come_from_the_fill_word() {
    for (fill, word, expected) in flags() {
        let mut s = holding(word);
        for old in [0, 1, 2048, 2049, u64::MAX] {
            s.flags = Flags::given(old);
            for (count, expected) in COUNTS.into_iter().zip(expected) {
                let end = done(count(reg(RAX), reg(RBX)), fill, &s);
                assert_eq!(end.flags.word, expected, "fill {fill}, source {word}");
            }
        }
    }
}

#[test]
fn the_destination_is_not_read() {
    for count in COUNTS {
        let mut ends = Vec::new();
        for old in [0, 1, u64::MAX] {
            let s = holding(old);
            let of_reg = done(count(reg(RBX), number(40)), 9, &s);
            let of_cell = done(count(at(ADDRESS), number(40)), 9, &s);
            let count = of_reg.regs[usize::from(RBX)];
            ends.push([
                count,
                cell_of(&of_cell),
                of_reg.flags.word,
                of_cell.flags.word,
            ]);
        }
        assert_eq!(ends, [ends[0]; 3]);
    }
}

#[test]
fn addresses_over_the_destination_are_those_met() {
    for (count, expected) in COUNTS.into_iter().zip([1, 51, 12]) {
        let s = holding(ADDRESS);
        let end = done(count(reg(RBX), at_reg(RBX, 0)), 0, &s);
        assert_eq!(end.regs[usize::from(RBX)], expected);
        let end = done(count(at_reg(RBX, 0), reg(RBX)), 0, &s);
        assert_eq!(cell_of(&end), expected);
    }
}

/// 31 comes before 32, and after either the source runs on: the count of the
/// word off Mem64, which is odd, is written where it can be, and flags are set.
#[test]
fn failed_checks_and_what_follows_them() {
    let s = holding(7);
    let (nowhere, fill) = (at(ADDRESS + 1), 2049);
    let failed = |numbers: &[u8]| -> Vec<Event> {
        let event = |n: &u8| Event::Failed(*n, PLACE);
        numbers.iter().map(event).collect()
    };
    for (count, flags) in COUNTS.into_iter().zip([0, 2048, 2048]) {
        for dst in [reg(RSP), number(1), nowhere] {
            let (end, bad) = evaluated(count(dst, reg(RBX)), fill, &s);
            assert_eq!((end.ok, end.flags.word, bad), (false, flags, failed(&[32])));
            let (end, bad) = evaluated(count(dst, nowhere), fill, &s);
            assert_eq!(
                (end.ok, end.flags.word, bad),
                (false, flags, failed(&[31, 32]))
            );
        }
        let (end, bad) = evaluated(count(reg(RAX), nowhere), fill, &s);
        assert_eq!((end.ok, end.flags.word, bad), (false, flags, failed(&[31])));
        let told = done(count(reg(RAX), number(OFF_MEM64)), fill, &s);
        assert_eq!(end.regs, told.regs);
    }
}

/// Memory that is there, without a cell, and below and above the range, where
/// Rax is 77 and Rdx 2^50.
const FINE: Operand = Operand::Mem(Maddr::Const(ADDRESS));
const ABSENT: Operand = Operand::Mem(Maddr::Const(ADDRESS + 1));
const BELOW: Operand = Operand::Mem(Maddr::Reg(RAX, -78));
const ABOVE: Operand = Operand::Mem(Maddr::Index(RAX, 0x7fff, RDX, i64::MAX));

/// The numbers of all the checks that fail, as the source runs on.
fn numbers(ins: Instruction) -> Vec<u8> {
    let mut s = holding(7);
    s.regs[usize::from(RDX)] = 1 << 50;
    numbers_from(ins, &s)
}

fn numbers_from(ins: Instruction, s: &State) -> Vec<u8> {
    let number = |event| match event {
        Event::Failed(number, PLACE) => number,
        other => panic!("{other:?}"),
    };
    let (_, bad) = evaluated(ins, 0, s);
    bad.into_iter().map(number).collect()
}

/// All that have a destination and a source or an amount.
fn twos() -> impl Iterator<Item = OfTwo> {
    TWOS.into_iter().chain([Shr64 as OfTwo, Shl64])
}

#[test]
fn wild_addresses_in_every_role() {
    let to = reg(RAX);
    for wild in [BELOW, ABOVE] {
        for two in twos() {
            assert_eq!(numbers(two(to, wild)), [36], "{:?}", two(to, wild));
            assert_eq!(numbers(two(wild, FINE)), [36], "{:?}", two(wild, FINE));
        }
        let others = [
            AddLea64(to, wild, FINE),
            AddLea64(to, FINE, wild),
            AddLea64(wild, FINE, FINE),
            Mul64(wild),
            Mulx64(to, to, wild),
            Mulx64(FINE, wild, FINE),
            Mulx64(wild, FINE, FINE),
            Pextrq(wild, 1, 0),
            Pinsrd(1, wild, 0),
            Pinsrq(1, wild, 0),
        ];
        for ins in others {
            assert_eq!(numbers(ins), [36], "{ins:?}");
        }
    }
}

/// Sources from left to right, then the destination, each with its own number.
#[test]
fn every_operand_has_its_own_number() {
    let table: [(Operand, Operand, &[u8]); 11] = [
        (FINE, ABSENT, &[31]),
        (ABSENT, FINE, &[32]),
        (ABSENT, ABSENT, &[31, 32]),
        (ABSENT, BELOW, &[36, 32]),
        (ABOVE, ABSENT, &[31, 36]),
        (ABOVE, BELOW, &[36, 36]),
        (reg(RSP), FINE, &[32]),
        (reg(RSP), ABOVE, &[36, 32]),
        (number(1), ABOVE, &[36, 32]),
        (reg(RSP), ABSENT, &[31, 32]),
        (number(1), ABSENT, &[31, 32]),
    ];
    for (dst, src, expected) in table {
        for two in twos() {
            assert_eq!(numbers(two(dst, src)), expected, "{:?}", two(dst, src));
        }
        let lea = AddLea64(dst, FINE, src);
        assert_eq!(numbers(lea), expected, "{lea:?}");
    }
    let lea = |a, b| numbers(AddLea64(reg(RSP), a, b));
    assert_eq!(lea(ABSENT, BELOW), [31, 36, 32]);
    assert_eq!(lea(BELOW, ABSENT), [36, 31, 32]);
    assert_eq!(lea(ABOVE, BELOW), [36, 36, 32]);
}

/// An amount is judged as an operand first, and 64 or more only if readable.
#[test]
fn shift_amounts_are_read_before_they_are_too_large() {
    for shift in [Shr64, Shl64] {
        for (amount, first) in [(BELOW, 36), (ABSENT, 31), (number(64), 33)] {
            let with = |dst| numbers(shift(dst, amount));
            assert_eq!(with(reg(RAX)), [first]);
            assert_eq!(with(ABSENT), [first, 32]);
            assert_eq!(with(ABOVE), [first, 36]);
            assert_eq!(with(reg(RSP)), [first, 32]);
            assert_eq!(with(number(1)), [first, 32]);
        }
        assert_eq!(numbers(shift(ABOVE, number(63))), [36]);
    }
}

/// Rdx times 1 is written to Rax, and the high half, 0, to 16 behind Rax.
#[test]
fn the_high_half_is_judged_after_the_low_write() {
    let mulx = |rax: u64, rdx: u64| {
        let mut s = holding(7);
        (s.regs[usize::from(RAX)], s.regs[usize::from(RDX)]) = (rax, rdx);
        numbers_from(Mulx64(at_reg(RAX, -16), reg(RAX), number(1)), &s)
    };
    let (home, beside) = (ADDRESS + 16, ADDRESS + 17);
    assert_eq!(mulx(home, home), []);
    assert_eq!(mulx(home, 15), [36], "wild by the low write");
    assert_eq!(mulx(15, home), [], "wild before it");
    assert_eq!(mulx(15, beside), [32], "wild before, without a cell after");
    assert_eq!(mulx(beside, 15), [36], "the other way");
    assert_eq!(mulx(15, 15), [36]);
    assert_eq!(numbers(Mulx64(ABSENT, BELOW, FINE)), [36, 32]);
    assert_eq!(numbers(Mulx64(BELOW, ABSENT, FINE)), [32, 36]);
    assert_eq!(numbers(Mulx64(BELOW, reg(RSP), ABSENT)), [31, 32, 36]);
    // The failed store left an entry in the source's map, which has no range.
    assert_eq!(numbers(Mulx64(BELOW, BELOW, FINE)), [36]);
    assert_eq!(numbers(Mulx64(ABSENT, ABSENT, FINE)), [32]);
}

/// Rax and the cell have the destination's word, Rbx the source's.
fn summands(dst: u64, src: u64, flags: u64) -> State {
    let mut s = holding(dst);
    (s.regs[0], s.regs[usize::from(RBX)], s.flags) = (dst, src, Flags::given(flags));
    s
}

#[test]
fn sums_on_the_board() {
    for (dst, src, sums) in sums() {
        for (old, adder, which) in adders() {
            let (s, sum) = (summands(dst, src, old), sums[which]);
            for (fill, flags) in over_fills(sum) {
                let from = format!("{dst} and {src}, flags {old}, fill {fill}");
                for by in [reg(RBX), number(src)] {
                    let end = done_by(Board, adder(reg(RAX), by), fill, &s);
                    assert_eq!((end.regs[0], end.flags.word), (sum.word, flags), "{from}");
                }
                let end = done_by(Board, adder(at(ADDRESS), reg(RBX)), fill, &s);
                assert_eq!((cell_of(&end), end.flags.word), (sum.word, flags), "{from}");
            }
        }
    }
}

#[test]
fn sums_by_the_base_keep_the_other_flags() {
    for (dst, src, sums) in sums() {
        for (old, adder, which) in adders() {
            let (s, sum) = (summands(dst, src, old), sums[which]);
            for fill in [0, u64::MAX] {
                let end = done(adder(reg(RAX), reg(RBX)), fill, &s);
                let flags = old / 2 * 2 + u64::from(sum.carry);
                assert_eq!((end.regs[0], end.flags.word), (sum.word, flags));
            }
        }
    }
}

/// Adcx64, Adox64 and all others that have a destination and a source.
#[test]
fn no_other_instruction_goes_by_the_evaluation() {
    let others = TWOS.into_iter().filter(|two| {
        let ins = two(reg(RAX), reg(RBX));
        !matches!(ins, Add64(..) | AddCarry64(..))
    });
    let others: Vec<OfTwo> = others.collect();
    assert_eq!(others.len(), 10);
    for (dst, src, sums) in sums() {
        for old in OLD {
            let s = summands(dst, src, old);
            for two in &others {
                let ins = two(reg(RAX), reg(RBX));
                assert_eq!(done(ins, 6, &s), done_by(Board, ins, 6, &s), "{ins:?}");
            }
            let by_carry = sums[(old % 2) as usize];
            let end = done_by(Board, Adcx64(reg(RAX), reg(RBX)), 6, &s);
            let flags = old / 2 * 2 + u64::from(by_carry.carry);
            assert_eq!((end.regs[0], end.flags.word), (by_carry.word, flags));
        }
    }
}

/// The source runs on: the flags are set by the words that it goes by, of which
/// the one off Mem64 is a positive number. 31 comes before 32.
#[test]
fn failed_sums_set_the_flags_too() {
    let largest = u64::MAX / 2;
    let s = summands(largest, 1, 4);
    let (nowhere, fill) = (at(ADDRESS + 1), 1 << 40);
    let table = [
        (Add64(reg(RSP), number(largest)), 2048, vec![32]),
        (Add64(number(largest), reg(RBX)), 2048, vec![32]),
        (Add64(number(1), reg(RBX)), 0, vec![32]),
        (Add64(number(u64::MAX), reg(RBX)), 1, vec![32]),
        (AddCarry64(nowhere, reg(RAX)), 2048, vec![32]),
        (AddCarry64(nowhere, reg(RBX)), 0, vec![32]),
        (Add64(reg(RAX), nowhere), 2048, vec![31]),
        (Add64(reg(RBX), nowhere), 0, vec![31]),
        (Add64(nowhere, nowhere), 2048, vec![31, 32]),
        (AddCarry64(number(1 << 63), nowhere), 0, vec![31, 32]),
    ];
    for (ins, flags, numbers) in table {
        let (end, bad) = evaluated_by(Board, ins, fill, &s);
        assert_eq!(
            (end.ok, end.flags.word),
            (false, (1 << 40) + flags),
            "{ins:?}"
        );
        let failed = numbers.iter().map(|n| Event::Failed(*n, PLACE));
        assert_eq!(bad, failed.collect::<Vec<Event>>());
        let (end, _) = evaluated(ins, fill, &s);
        assert_eq!((end.ok, end.flags.word), (false, 4 + flags % 2), "{ins:?}");
    }
}
