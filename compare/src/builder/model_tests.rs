//! The builder's answers, bytes and open parts, call by call.

use super::super::calls::of_tree;
use super::super::values::Values;
use super::*;
use crate::build::{number, reg};
use crate::reader::read;
use crate::rng::Rng;
use crate::tree::Instruction::*;
use crate::tree::*;
use crate::writer::write;
use Call::{Add, Close, OpenBlock, OpenIfElse, OpenWhile};

const XOR: Call = Add(Pxor(0, 1));
const BAD: Call = Add(Pxor(0, 16));
const PLENTY: usize = 20_000;

fn equal(a: Reg, b: Reg) -> Ocmp {
    Ocmp::unplaced(Relation::Eq, reg(a), reg(b))
}

fn if_equal() -> Call {
    OpenIfElse(equal(0, 1))
}

fn while_equal() -> Call {
    OpenWhile(equal(0, 1))
}

/// Answers a call and takes it where the answer is 0.
fn lent(model: &mut Model, call: &Call, bytes: usize) -> u8 {
    let answer = model.answer(call, bytes);
    if answer == 0 {
        model.take(call.clone());
    }
    answer
}

/// A build after calls that are all taken.
fn after(calls: &[Call]) -> Model {
    let mut model = Model::default();
    for call in calls {
        assert_eq!(lent(&mut model, call, PLENTY), 0, "{call:?}");
        assert_eq!(model.front().len(), model.length());
    }
    model
}

fn answers(model: &Model, calls: &[Call]) -> Vec<u8> {
    calls.iter().map(|c| model.answer(c, PLENTY)).collect()
}

/// Everything that may be called, with registers and with an absent one.
fn every_call() -> [Call; 8] {
    let bad = equal(255, 0);
    [
        OpenBlock,
        if_equal(),
        while_equal(),
        XOR,
        Close,
        OpenIfElse(bad.clone()),
        OpenWhile(bad),
        BAD,
    ]
}

const ALL_51: [u8; 8] = [51; 8];

fn build_of(model: &Model) -> Build {
    let mut build = Build::default();
    model.describe(&mut build);
    build
}

/// Kind, place of the length and start of each open part.
fn open_parts(model: &Model) -> Vec<(u8, u16, u16)> {
    let build = build_of(model);
    let entry = |i: usize| (build.parts[i], build.fields[i], build.starts[i]);
    (0..usize::from(build.depth)).map(entry).collect()
}

#[test]
fn an_instruction_alone_is_finished() {
    let add = Add(Add64(reg(RAX), number(1)));
    let model = after(&[add]);
    assert_eq!(model.front(), [2, 0x41, 0, 0x40, 1, 0, 0, 0, 0, 0, 0, 0]);
    assert_eq!(model.stand(), Stand::Finished);
    assert_eq!((build_of(&model).length, build_of(&model).depth), (12, 0));
    assert_eq!(answers(&model, &every_call()), ALL_51);
}

#[test]
fn the_kernel_of_p14() {
    let differs = Ocmp::unplaced(Relation::Ne, reg(RAX), number(0));
    let calls = [OpenWhile(differs), Add(Sub64(reg(RAX), number(1))), Close];
    let head = [
        0x22, 0, 0, 0, 0, 0x31, 0x41, 0, 0x40, 0, 0, 0, 0, 0, 0, 0, 0,
    ];
    let less = [0x07, 0x41, 0, 0x40, 1, 0, 0, 0, 0, 0, 0, 0];
    let opened = after(&calls[..1]);
    assert_eq!(opened.front(), head);
    assert_eq!(open_parts(&opened), [(2, 1, 17)]);
    let added = after(&calls[..2]);
    assert_eq!(added.front(), [&head[..], &less].concat());
    assert_eq!(open_parts(&added), [(2, 1, 17)]);
    let closed = after(&calls);
    let mut whole = [&head[..], &less].concat();
    whole[1] = 12;
    assert_eq!(closed.front(), whole);
    assert_eq!((open_parts(&closed), whole.len()), (vec![], 29));
    let read_back = read(&whole).map(|code| of_tree(&code));
    assert_eq!(read_back, Ok(calls.to_vec()));
}

#[test]
fn the_lengths_of_an_if_else() {
    let shuffle = Add(Pshufd(1, 2, 3));
    let calls = [if_equal(), XOR, Close, shuffle, Close];
    let bytes = |counted: [u8; 2], tail: &[u8]| {
        let head = [0x21, counted[0], 0, 0, 0, counted[1], 0, 0, 0];
        [&head, &[0x30, 0x41, 0, 0x41, 1][..], tail].concat()
    };
    let both = [0x10, 0, 1, 0x13, 1, 2, 3];
    let stages = [
        (bytes([0, 0], &[]), vec![(1, 1, 14)]),
        (bytes([0, 0], &both[..3]), vec![(1, 1, 14)]),
        (bytes([3, 0], &both[..3]), vec![(2, 5, 17)]),
        (bytes([3, 0], &both), vec![(2, 5, 17)]),
        (bytes([3, 4], &both), vec![]),
    ];
    for (count, (front, open)) in stages.into_iter().enumerate() {
        let model = after(&calls[..=count]);
        assert_eq!((model.front(), open_parts(&model)), (front, open));
    }
}

#[test]
fn open_parts_inside_each_other() {
    let model = after(&[
        OpenBlock,
        XOR,
        if_equal(),
        XOR,
        Close,
        while_equal(),
        OpenBlock,
    ]);
    let open = [(0, 1, 5), (2, 13, 25), (2, 26, 35), (0, 36, 40)];
    assert_eq!(open_parts(&model), open);
    assert_eq!(build_of(&model).length, 40);
}

#[test]
fn a_block_is_closed_empty_or_after_any_number() {
    assert_eq!(after(&[OpenBlock]).front(), [0x20, 0, 0, 0, 0]);
    let empty = after(&[OpenBlock, Close]);
    assert_eq!(empty.front(), [0x20, 0, 0, 0, 0]);
    assert_eq!(empty.stand(), Stand::Finished);
    let two = after(&[OpenBlock, OpenBlock, Close, XOR, Close]);
    let bytes = [0x20, 8, 0, 0, 0, 0x20, 0, 0, 0, 0, 0x10, 0, 1];
    assert_eq!(two.front(), bytes);
}

#[test]
fn what_fits_where() {
    let begun = [0, 0, 0, 0, 51, 4, 4, 4];
    let block = [0, 0, 0, 0, 0, 4, 4, 4];
    let full = [51, 51, 51, 51, 0, 51, 51, 51];
    let (if_, while_) = (if_equal(), while_equal());
    let at = |calls: &[Call]| answers(&after(calls), &every_call());
    assert_eq!(at(&[]), begun);
    assert_eq!(at(&[OpenBlock]), block);
    assert_eq!(at(&[OpenBlock, XOR]), block);
    assert_eq!(at(std::slice::from_ref(&if_)), begun, "a true part");
    assert_eq!(at(&[if_.clone(), XOR]), full);
    assert_eq!(at(&[if_.clone(), OpenBlock, Close]), full);
    assert_eq!(at(&[if_.clone(), XOR, Close]), begun, "a false part");
    assert_eq!(at(&[if_.clone(), XOR, Close, XOR]), full);
    assert_eq!(at(&[if_, XOR, Close, XOR, Close]), ALL_51);
    assert_eq!(at(std::slice::from_ref(&while_)), begun, "a While's part");
    assert_eq!(at(&[while_.clone(), XOR]), full);
    assert_eq!(at(&[while_, XOR, Close]), ALL_51);
    assert_eq!(at(&[OpenBlock, Close]), ALL_51);
}

#[test]
fn every_register_field_is_judged() {
    let bad = |ins: Instruction| Model::default().answer(&Add(ins), PLENTY);
    let index = |base, index| Operand::Mem(Maddr::Index(base, 8, index, 0));
    assert_eq!(bad(Mov64(reg(15), reg(16))), 4);
    assert_eq!(bad(AddLea64(reg(0), number(99), reg(255))), 4);
    assert_eq!(bad(Mul64(Operand::Mem(Maddr::Reg(16, 0)))), 4);
    assert_eq!(bad(Mul64(index(16, 0))), 4);
    assert_eq!(bad(Mul64(index(0, 16))), 4);
    assert_eq!(bad(Mul64(index(15, 15))), 0);
    assert_eq!(bad(Pshufd(16, 0, 0)), 4);
    assert_eq!(bad(Pshufd(0, 16, 0)), 4);
    assert_eq!(bad(Pshufd(0, 0, 255)), 0, "no register");
    assert_eq!(bad(Pslld(0, 255)), 0, "an amount");
    assert_eq!(bad(Pextrq(reg(0), 16, 255)), 4);
    assert_eq!(bad(Pinsrd(0, reg(16), 255)), 4);
    for count in COUNTS {
        assert_eq!(bad(count(reg(16), reg(0))), 4);
        assert_eq!(bad(count(number(99), index(0, 16))), 4);
        assert_eq!(bad(count(number(99), reg(15))), 0);
    }
}

/// In the record's byte order with 4.
#[test]
fn every_scale_is_judged() {
    let bad = |ins: Instruction| Model::default().answer(&Add(ins), PLENTY);
    let index = |base, scale, index| Operand::Mem(Maddr::Index(base, scale, index, 0));
    for scale in [1, 2, 4, 8] {
        assert_eq!(bad(Mul64(index(15, scale, 15))), 0);
    }
    for scale in [0, 3, -1, 7, 9, 16, 256, i16::MAX, i16::MIN] {
        assert_eq!(bad(Mul64(index(15, scale, 15))), 7);
        assert_eq!(bad(Mul64(index(16, scale, 15))), 4);
        assert_eq!(bad(Mul64(index(15, scale, 16))), 7);
        assert_eq!(bad(AddLea64(reg(0), index(0, scale, 0), reg(16))), 7);
        assert_eq!(bad(AddLea64(reg(16), reg(0), index(0, scale, 0))), 4);
        assert_eq!(bad(Pextrq(index(0, scale, 0), 15, 255)), 7);
        assert_eq!(bad(Pextrq(index(0, scale, 0), 16, 255)), 4);
        let compared = |left, right| Ocmp::unplaced(Relation::Gt, left, right);
        for open in [OpenIfElse, OpenWhile] {
            let seven = open(compared(reg(0), index(0, scale, 16)));
            let four = open(compared(reg(16), index(0, scale, 0)));
            assert_eq!(answers(&Model::default(), &[seven, four]), [7, 4]);
        }
    }
}

#[test]
fn depth_32_and_33() {
    let blocks = |count: usize| after(&vec![OpenBlock; count]);
    let bad_comparison = OpenWhile(equal(0, 16));
    let nearly = [OpenBlock, if_equal(), while_equal(), XOR, Close];
    assert_eq!(answers(&blocks(31), &nearly), [0; 5]);
    assert_eq!(answers(&blocks(32), &nearly), [53, 53, 53, 53, 0]);
    assert_eq!(answers(&blocks(32), &[BAD, bad_comparison]), [4, 4]);
    for opening in [if_equal(), while_equal()] {
        let mut calls = vec![OpenBlock; 31];
        calls.push(opening);
        let stuck = after(&calls);
        assert_eq!(answers(&stuck, &nearly), [53, 53, 53, 53, 51]);
        assert_eq!(stuck.depth(), 32);
    }
    let mut closing = blocks(32);
    for left in (0..32).rev() {
        assert_eq!(lent(&mut closing, &Close, PLENTY), 0);
        assert_eq!(closing.depth(), left);
    }
    assert!(read(&closing.front()).is_ok());
}

#[test]
fn the_order_of_the_refusals() {
    let full = after(&[while_equal(), XOR]);
    assert_eq!(full.answer(&BAD, 0), 51, "ahead of 4 and 52");
    assert_eq!(Model::default().answer(&BAD, 0), 4, "ahead of 52");
    assert_eq!(Model::default().answer(&Close, 0), 51);
    assert_eq!(Model::default().answer(&XOR, 0), 52);
    let mut deep = after(&vec![OpenBlock; 31]);
    deep.take(while_equal());
    assert_eq!(deep.answer(&Close, 0), 51, "ahead of 52");
    assert_eq!(deep.answer(&BAD, 0), 4, "ahead of 53 and 52");
    assert_eq!(deep.answer(&XOR, 0), 53, "ahead of 52");
    let finished = after(&[XOR]);
    assert_eq!(finished.answer(&BAD, 0), 51);
    let unscaled = Add(Mul64(Operand::Mem(Maddr::Index(0, 3, 0, 0))));
    assert_eq!(full.answer(&unscaled, 0), 51, "ahead of 7 and 52");
    assert_eq!(Model::default().answer(&unscaled, 0), 7, "ahead of 52");
    assert_eq!(deep.answer(&unscaled, 0), 7, "ahead of 53 and 52");
    assert_eq!(finished.answer(&unscaled, 0), 51);
}

#[test]
fn buffers_one_byte_short() {
    let opened = [if_equal(), XOR, Close, while_equal(), OpenBlock, XOR];
    let calls = [&opened[..], &[Close, Close, Close]].concat();
    let mut model = Model::default();
    for call in &calls {
        let need = model.length() + added(call);
        for short in [0, need / 2, need - 1] {
            assert_eq!(model.answer(call, short), 52, "{call:?}");
        }
        assert_eq!(lent(&mut model, call, need), 0);
        assert_eq!(model.length(), need);
    }
    assert_eq!(model.stand(), Stand::Finished);
    assert_eq!(model.answer(&Close, 0), 51);
}

/// A Block with instructions up to so many bytes, of which 16,379 can be had
/// by threes and fours.
fn filled(bytes: usize) -> Model {
    let mut model = after(&[OpenBlock]);
    while model.length() < bytes {
        let left = bytes - model.length();
        let last = match left % 3 {
            0 => XOR,
            _ => Add(Pshufd(0, 1, 2)),
        };
        assert_eq!(lent(&mut model, &last, PLENTY), 0);
    }
    model
}

#[test]
fn at_most_16_384_bytes() {
    let mut model = filled(LONGEST);
    assert_eq!(model.length(), LONGEST);
    assert_eq!(model.answer(&XOR, PLENTY), 52);
    assert_eq!(model.answer(&OpenBlock, PLENTY), 52);
    assert_eq!(model.answer(&Close, LONGEST - 1), 52);
    assert_eq!(lent(&mut model, &Close, LONGEST), 0);
    assert!(read(&model.front()).is_ok());
    assert_eq!(model.front()[..5], [0x20, 0xfb, 0x3f, 0, 0]);
    let nearly = filled(LONGEST - 3);
    assert_eq!(nearly.answer(&XOR, LONGEST), 0);
    assert_eq!(nearly.answer(&XOR, LONGEST - 1), 52);
    assert_eq!(nearly.answer(&Add(Pshufd(0, 1, 2)), PLENTY), 52);
}

#[test]
fn every_tree_can_be_built() {
    let mut rng = Rng::new(5);
    for turn in 0..300 {
        let mut values = Values::new(&mut rng, 0);
        let tree = match turn % 3 {
            0 => values.spine(1 + turn % 32),
            _ => values.tree(1 + turn % 30, 1 + turn % 9),
        };
        let calls = of_tree(&tree);
        let model = after(&calls);
        assert_eq!(model.stand(), Stand::Finished);
        assert_eq!(model.front(), write(&tree));
        assert_eq!(read(&model.front()).map(|code| of_tree(&code)), Ok(calls));
    }
}
