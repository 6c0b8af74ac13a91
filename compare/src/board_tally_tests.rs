//! What has to be met on the board, and how it is told apart.

use super::*;
use crate::answer::Answer;
use crate::cells::Cell;
use crate::state::Start;
use crate::watch::Watch;

#[test]
fn what_has_to_be_met() {
    let lists = [sum_labels(), end_classes(), ending_labels()];
    assert_eq!(lists.each_ref().map(Vec::len), [2 * 27, 8, 7]);
    let mut all = lists.concat();
    all.sort();
    all.dedup();
    assert_eq!(all.len(), 54 + 8 + 7, "no label stands for two things");
    let mut tally = BoardTally::default();
    assert_eq!(tally.missing().len(), 54 + 8 + 7 + 32);
    assert!(tally.missing()[0].starts_with("on the board: "));
    tally.not_taken = 1;
    assert!(tally.missing().is_empty());
}

/// 2^63-1 and 0, with the carry: the sum leaves the range.
#[test]
fn labels_of_a_sum() {
    let sum = Sum::new(Adder::AddCarry64, [u64::MAX / 2, 0], 5, 2049, 2048);
    let expected = [
        "AddCarry64: non-negative and non-negative, overflow set",
        "AddCarry64: overflow was clear, is set",
        "AddCarry64: overflow set in fill, is set",
        "AddCarry64: carry set in fill, is clear",
        "AddCarry64: one more would leave, carry set",
        "AddCarry64: other bits were not fill's",
    ];
    assert_eq!(labels_of(&sum), expected);
    let all = sum_labels();
    assert!(expected
        .iter()
        .all(|label| all.contains(&label.to_string())));
    // -2^63 and 1: neither edge nor other bits.
    let sum = Sum::new(Adder::Add64, [1 << 63, 1], 2049, 0, 0);
    let expected = [
        "Add64: negative and non-negative, overflow clear",
        "Add64: overflow was set, is clear",
        "Add64: overflow clear in fill, is clear",
        "Add64: carry clear in fill, is clear",
    ];
    assert_eq!(labels_of(&sum), expected);
}

fn ended() -> Outcome {
    let start = Start {
        flags: 0,
        regs: [0; 16],
        xmms: [[0; 4]; 16],
    };
    let cell = Cell {
        address: 8,
        tag: 64,
        value: 7,
    };
    Outcome {
        answer: Answer::Done,
        steps: 2,
        watch: Watch::default(),
        end: Some((start, vec![cell])),
    }
}

#[test]
fn parts_that_differ() {
    let changes: [fn(&mut Outcome); 6] = [
        |o| o.answer = Answer::Spent(0),
        |o| o.steps = 3,
        |o| o.end.as_mut().unwrap().0.regs[15] = 1,
        |o| o.end.as_mut().unwrap().0.xmms[15][3] = 1,
        |o| o.end.as_mut().unwrap().1[0].value = 8,
        |o| o.end.as_mut().unwrap().0.flags = 2048,
    ];
    let (base, mut all) = (ended(), ended());
    assert!(parts_of(&base, &all).is_empty());
    for (change, part) in changes.into_iter().zip(PARTS) {
        let mut board = ended();
        change(&mut board);
        change(&mut all);
        assert_eq!(parts_of(&base, &board), [part]);
    }
    assert_eq!(parts_of(&base, &all), PARTS);
}

#[test]
fn flags_alone() {
    let (base, mut board) = (ended(), ended());
    let mut tally = BoardTally::default();
    board.end.as_mut().unwrap().0.flags = 1;
    tally.add(&base, &board, &SumLog::default());
    board.steps = 9;
    tally.add(&base, &board, &SumLog::default());
    assert_eq!(tally.counts.0[FLAGS_ALONE], 1);
    assert_eq!(tally.counts.0[&part_label("flags")], 2);
    assert_eq!((tally.counts.0["done"], tally.runs), (2, 2));
}
