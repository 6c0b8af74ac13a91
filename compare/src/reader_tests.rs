//! The order of the troubles and their places.

use super::*;
use crate::writer::write;

fn answer(bytes: &[u8]) -> Option<(u8, usize)> {
    read(bytes).err().map(|t| (t.number, t.place))
}

/// A Block around some bytes.
fn block(inner: &[u8]) -> Vec<u8> {
    let mut out = vec![0x20];
    out.extend((inner.len() as u32).to_le_bytes());
    out.extend(inner);
    out
}

fn nested(levels: usize, inner: &[u8]) -> Vec<u8> {
    (0..levels).fold(inner.to_vec(), |code, _| block(&code))
}

/// An IfElse over Rax and Rbx, its two parts and their stated lengths.
fn if_else(lengths: [u32; 2], parts: &[u8]) -> Vec<u8> {
    let mut out = vec![0x21];
    out.extend(lengths[0].to_le_bytes());
    out.extend(lengths[1].to_le_bytes());
    out.extend([0x30, 0x41, 0, 0x41, 1]);
    out.extend(parts);
    out
}

fn while_loop(length: u32, part: &[u8]) -> Vec<u8> {
    let mut out = vec![0x22];
    out.extend(length.to_le_bytes());
    out.extend([0x30, 0x41, 0, 0x41, 1]);
    out.extend(part);
    out
}

const XOR: [u8; 3] = [0x10, 0, 1];

#[test]
fn lengths_of_the_input() {
    assert_eq!(answer(&[]), Some((1, 0)));
    assert_eq!(answer(&vec![0; LONGEST]), Some((2, 0)));
    assert_eq!(answer(&vec![0; LONGEST + 1]), Some((1, 0)));
    assert_eq!(answer(&[0x10, 0, 1, 0]), Some((6, 3)));
}

#[test]
fn kinds_where_they_are_allowed() {
    for kind in [
        0x00, 0x1c, 0x1d, 0x1e, 0x1f, 0x23, 0x30, 0x35, 0x40, 0x44, 0xff,
    ] {
        assert_eq!(answer(&[kind]), Some((2, 0)));
    }
    assert_eq!(answer(&[0x08]), Some((3, 1)));
    assert_eq!(answer(&[0x08, 0x3f]), Some((2, 1)));
    assert_eq!(answer(&[0x08, 0x45]), Some((2, 1)));
    assert_eq!(answer(&[0x22, 0, 0, 0, 0]), Some((3, 5)));
    assert_eq!(answer(&[0x22, 0, 0, 0, 0, 0x36]), Some((2, 5)));
    assert_eq!(answer(&[0x22, 0, 0, 0, 0, 0x41]), Some((2, 5)));
}

#[test]
fn bodies_cut_short_come_before_numbers() {
    assert_eq!(answer(&[0x10, 16]), Some((3, 0)));
    assert_eq!(answer(&[0x10, 16, 16]), Some((4, 1)));
    assert_eq!(answer(&[0x10, 15, 16]), Some((4, 2)));
    assert_eq!(answer(&[0x11, 15, 255]), None);
    assert_eq!(answer(&[0x08, 0x41]), Some((3, 1)));
    assert_eq!(answer(&[0x08, 0x41, 16]), Some((4, 2)));
    assert_eq!(answer(&[0x15, 16, 0]), Some((4, 1)));
    assert_eq!(answer(&[0x15, 0, 0]), Some((3, 3)));
    let index = [0x08, 0x44, 15, 1, 0, 16, 0, 0, 0, 0, 0, 0, 0, 0];
    assert_eq!(answer(&index), Some((4, 5)));
    assert_eq!(answer(&index[..13]), Some((3, 1)));
}

/// Mul64 of an MIndex.
fn product(base: u8, scale: i16, index: u8) -> Vec<u8> {
    let [low, high] = scale.to_le_bytes();
    [&[0x08, 0x44, base, low, high, index][..], &[0; 8]].concat()
}

#[test]
fn scales_are_judged_among_the_numbers() {
    for scale in [1, 2, 4, 8] {
        assert_eq!(answer(&product(15, scale, 15)), None);
        assert_eq!(answer(&product(16, scale, 16)), Some((4, 2)));
        assert_eq!(answer(&product(15, scale, 16)), Some((4, 5)));
    }
    for scale in [0, 3, -1, 7, 9, 16, 256, 257, 264, i16::MAX, i16::MIN] {
        assert_eq!(answer(&product(15, scale, 15)), Some((7, 3)));
        assert_eq!(answer(&product(15, scale, 16)), Some((7, 3)));
        assert_eq!(answer(&product(16, scale, 15)), Some((4, 2)));
        assert_eq!(answer(&product(16, scale, 16)), Some((4, 2)));
        assert_eq!(answer(&product(15, scale, 15)[..13]), Some((3, 1)));
        let lane = [&[0x17, 16, 0][..], &product(0, scale, 0)[1..]].concat();
        assert_eq!(answer(&lane), Some((4, 1)));
        assert_eq!(answer(&block(&product(0, scale, 0))), Some((7, 8)));
        assert_eq!(answer(&nested(32, &product(0, scale, 0))), Some((5, 160)));
    }
}

/// In a comparison ahead of lengths that do not fit.
#[test]
fn scales_of_comparisons() {
    let operand = &product(0, 3, 0)[1..];
    let looped = [&[0x22, 9, 0, 0, 0, 0x30, 0x41, 0], operand, &XOR].concat();
    assert_eq!(answer(&looped), Some((7, 10)));
    let last_year = read_by(Rule::LastYear, &looped).err();
    assert_eq!(
        last_year,
        Some(Trouble {
            number: 6,
            place: 0
        })
    );
    let choice = [&[0x21, 3, 0, 0, 0, 9, 0, 0, 0, 0x30], operand].concat();
    assert_eq!(answer(&choice), Some((7, 12)));
}

#[test]
fn whose_operand_came_last() {
    let operand = &product(0, 3, 0)[1..];
    let looped = [&[0x22, 0, 0, 0, 0, 0x30], operand].concat();
    let choice = [&[0x21, 0, 0, 0, 0, 0, 0, 0, 0, 0x30], operand].concat();
    assert_eq!(last_holder(&product(0, 3, 0)), Some(Next::Instruction));
    assert_eq!(last_holder(&looped), Some(Next::Test));
    assert_eq!(last_holder(&choice), Some(Next::Choice));
    let behind = if_else([3, 14], &[&XOR, &product(0, 3, 0)[..]].concat());
    assert_eq!(last_holder(&behind), Some(Next::Instruction));
    assert_eq!(last_holder(&XOR), None);
}

#[test]
fn counts_are_a_destination_and_a_source() {
    for (kind, count) in (0x19..).zip(COUNTS) {
        let record = [kind, 0x41, 1, 0x44, 2, 8, 0, 3, 5, 0, 0, 0, 0, 0, 0, 0];
        let memory = Operand::Mem(Maddr::Index(2, 8, 3, 5));
        let code = Code::unplaced(Node::Ins(count(Operand::Reg(1), memory)));
        assert_eq!(write(&code), record);
        assert_eq!(read(&record), Ok(code));
        assert_eq!(answer(&[kind]), Some((3, 1)));
        assert_eq!(answer(&record[..3]), Some((3, 3)));
        assert_eq!(answer(&record[..15]), Some((3, 3)));
        assert_eq!(answer(&[kind, 0x41, 16, 0x41, 16]), Some((4, 2)));
        assert_eq!(answer(&[kind, 0x41, 15, 0x41, 16]), Some((4, 4)));
        assert_eq!(answer(&[kind, 0x41, 0, 0x41, 0, 0]), Some((6, 5)));
        assert_eq!(answer(&nested(32, &[kind])), Some((5, 32 * 5)));
    }
}

#[test]
fn the_end_of_a_part_is_an_end() {
    assert_eq!(answer(&[0x20, 2, 0, 0, 0, 0x10, 0, 1]), Some((3, 5)));
    assert_eq!(answer(&[0x20, 3, 0, 0, 0, 0x10, 0]), Some((6, 0)));
    assert_eq!(answer(&[0x20, 3, 0, 0]), Some((3, 0)));
    assert_eq!(answer(&[0x20, 0, 0, 0, 0]), None);
    assert_eq!(answer(&[0x20, 0, 0, 0, 0, 0x20]), Some((6, 5)));
}

#[test]
fn depth() {
    assert_eq!(answer(&nested(31, &XOR)), None);
    assert_eq!(answer(&nested(32, &[])), None);
    assert_eq!(answer(&nested(32, &XOR)), Some((5, 32 * 5)));
    assert_eq!(answer(&nested(32, &[0x10])), Some((5, 32 * 5)));
    assert_eq!(answer(&nested(32, &[0x1c])), Some((2, 32 * 5)));
    assert_eq!(
        answer(&nested(31, &while_loop(0, &[]))),
        Some((3, 31 * 5 + 10))
    );
    assert_eq!(
        answer(&nested(31, &while_loop(3, &XOR))),
        Some((5, 31 * 5 + 10))
    );
}

#[test]
fn parts_of_an_if_else() {
    let two = [0x10, 0, 1, 0x0f, 2, 3];
    assert_eq!(answer(&if_else([3, 3], &two)), None);
    assert_eq!(answer(&if_else([3, 4], &two)), Some((6, 0)));
    assert_eq!(answer(&if_else([2, 4], &two)), Some((3, 14)));
    assert_eq!(answer(&if_else([4, 2], &two)), Some((6, 17)));
    assert_eq!(answer(&if_else([6, 0], &two)), Some((6, 17)));
    assert_eq!(answer(&if_else([0, 6], &two)), Some((3, 14)));
    assert_eq!(answer(&if_else([3, 2], &two)), Some((3, 17)));
    assert_eq!(answer(&if_else([3, 0], &XOR)), Some((3, 17)));
    assert_eq!(answer(&if_else([u32::MAX, 7], &two)), Some((6, 0)));
    let mut bad_comparison = if_else([u32::MAX, 7], &two);
    bad_comparison[10] = 0x30;
    assert_eq!(answer(&bad_comparison), Some((2, 10)));
}

#[test]
fn parts_of_a_while() {
    assert_eq!(answer(&while_loop(3, &XOR)), None);
    assert_eq!(answer(&while_loop(4, &XOR)), Some((6, 0)));
    assert_eq!(answer(&while_loop(2, &XOR)), Some((3, 10)));
    assert_eq!(answer(&while_loop(0, &XOR)), Some((3, 10)));
    assert_eq!(answer(&block(&while_loop(3, &XOR))), None);
    let mut reaches_out = block(&while_loop(5, &XOR));
    reaches_out.extend([0, 0]);
    assert_eq!(answer(&reaches_out), Some((6, 5)));
}

#[test]
fn places_are_kept() {
    let code = read(&block(&if_else([3, 5], &[0x10, 0, 1, 0x20, 0, 0, 0, 0]))).unwrap();
    let Node::Block(codes) = code.node else {
        panic!("a Block");
    };
    let Node::IfElse(condition, yes, no) = &codes[0].node else {
        panic!("an IfElse");
    };
    let places = (codes[0].place, condition.place, yes.place, no.place);
    assert_eq!(places, (5, 14, 19, 22));
}
