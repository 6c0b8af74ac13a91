//! Exact addresses worked out by hand, and what is found there.

use super::*;
use crate::build::{at, at_index, at_reg, number, reg};
use Found::{NoCell, OutOfRange, Word};

const RBX: Reg = 1;
const RCX: Reg = 2;
const TOP: u64 = u64::MAX;

/// Rbx and Rcx as given; 64-bit cells at both ends of the range, where an
/// address modulo 2^64 would find one, and a narrow one at 4096.
fn state(rbx: u64, rcx: u64) -> State {
    let mut regs = [0; 16];
    (regs[usize::from(RBX)], regs[usize::from(RCX)]) = (rbx, rcx);
    let start = Start {
        flags: 0,
        regs,
        xmms: [[0; 4]; 16],
    };
    let cell = |(address, tag)| Cell {
        address,
        tag,
        value: 7,
    };
    State::new(&start, &[(0, 64), (4096, 32), (TOP - 7, 64)].map(cell))
}

fn expect(o: Operand, s: &State, address: i128, found: Found) {
    let located = locate(o, &s.regs);
    let told = (located, look(located, s));
    assert_eq!(told, (Located::Mem(address), found), "{o:?}");
}

#[test]
fn a_register_and_an_offset() {
    let table = [
        (0, -1, -1, OutOfRange),
        (0, -8, -8, OutOfRange),
        (1, -1, 0, Word),
        (1, 0, 1, NoCell),
        (0, 4096, 4096, NoCell),
        (TOP, -7, 18_446_744_073_709_551_608, Word),
        (TOP, 0, 18_446_744_073_709_551_615, NoCell),
        (TOP, 1, 18_446_744_073_709_551_616, OutOfRange),
        (0, i64::MIN, -9_223_372_036_854_775_808, OutOfRange),
        (1 << 63, i64::MIN, 0, Word),
        (TOP, i64::MAX, 27_670_116_110_564_327_422, OutOfRange),
    ];
    for (rbx, offset, address, found) in table {
        expect(at_reg(RBX, offset), &state(rbx, 0), address, found);
    }
    expect(at(TOP), &state(0, 0), (1 << 64) - 1, NoCell);
    expect(at(0), &state(0, 0), 0, Word);
}

#[test]
fn a_base_and_a_scaled_index() {
    let far = 604_472_133_179_351_442_096_127;
    let half = 1 << 63;
    let table = [
        ((0, -1, 1, 0), -1, OutOfRange),
        ((8, -1, 8, 0), 0, Word),
        ((8, -1, 8, -1), -1, OutOfRange),
        ((0, 1, 7, -8), -1, OutOfRange),
        ((0, -1, 8, 8), 0, Word),
        ((TOP, 1, 1, -8), 18_446_744_073_709_551_608, Word),
        ((TOP, 1, 8, -8), 18_446_744_073_709_551_615, NoCell),
        ((TOP - 7, 8, 1, 0), 18_446_744_073_709_551_616, OutOfRange),
        ((TOP - 8, 1, 8, 1), 18_446_744_073_709_551_616, OutOfRange),
        ((TOP, 0, TOP, 0), 18_446_744_073_709_551_615, NoCell),
        ((TOP, 0, TOP, 1), 18_446_744_073_709_551_616, OutOfRange),
        ((0, 0, TOP, -1), -1, OutOfRange),
        ((TOP, -1, TOP, 0), 0, Word),
        ((0, 2, half, 0), 18_446_744_073_709_551_616, OutOfRange),
        ((0, -2, half, 0), -18_446_744_073_709_551_616, OutOfRange),
        (
            (TOP - 7, 2, half, 0),
            36_893_488_147_419_103_224,
            OutOfRange,
        ),
        ((TOP - 7, -2, half, 0), -8, OutOfRange),
        ((TOP, 32_767, TOP, i64::MAX), far, OutOfRange),
        ((0, -32_768, TOP, i64::MIN), -far - 1, OutOfRange),
    ];
    for ((base, scale, index, offset), address, found) in table {
        let o = at_index(RBX, scale, RCX, offset);
        expect(o, &state(base, index), address, found);
    }
}

/// Read, or a destination; a constant and Rsp have no address to judge.
#[test]
fn numbers_by_role() {
    let s = state(0, 0);
    let table = [
        (number(1), Ok(()), Err(32)),
        (reg(RSP), Ok(()), Err(32)),
        (reg(RBX), Ok(()), Ok(())),
        (at(0), Ok(()), Ok(())),
        (at(1), Err(31), Err(32)),
        (at(4096), Err(31), Err(32)),
        (at(TOP), Err(31), Err(32)),
        (at_reg(RBX, -1), Err(36), Err(36)),
        (at_reg(RSP, -8), Err(36), Err(36)),
    ];
    for (o, read, written) in table {
        let located = locate(o, &s.regs);
        let judged = (valid_operand(located, &s), valid_dst_operand(located, &s));
        assert_eq!(judged, (read, written), "{o:?}");
    }
}

/// The source stores after a failed check too, and its map has no range.
#[test]
fn a_failed_store_out_of_range_leaves_an_entry() {
    let mut s = state(0, 0);
    let below = locate(at_reg(RBX, -8), &s.regs);
    assert_eq!(look(below, &s), OutOfRange);
    update_operand(below, 5, &mut s);
    assert_eq!((look(below, &s), eval_operand(below, &s, 0)), (Word, 5));
    let top = locate(at(TOP - 7), &s.regs);
    assert_eq!(eval_operand(top, &s, 0), 7);
}
