//! What has to be met of the least fuel, and how it is told apart.

use super::*;
use crate::build::*;
use crate::job::Job;
use crate::least::{least_fuel, Reach};
use crate::run::accept;
use crate::terms::Evaluation::{Base, Board};
use crate::tree::Instruction::*;
use crate::tree::{Ocmp, Operand, Relation, RAX};

const A: Operand = Operand::Reg(RAX);

#[test]
fn what_has_to_be_met() {
    let lists = [end_labels(), name_labels()];
    let ends = 3 + 6 + 2 + 4 + 3 + 1 + 2 + 2;
    assert_eq!(lists.each_ref().map(Vec::len), [ends, 11 + 12]);
    let mut all = lists.concat();
    all.sort();
    all.dedup();
    assert_eq!(all.len(), ends + 23, "no label stands for two things");
    let mut tally = LeastTally::default();
    assert_eq!(tally.missing().len(), 2 * (ends + 23) + 1);
    assert_eq!(tally.missing_ends().len(), 2 * ends + 1);
    tally.not_taken = 1;
    assert!(tally.missing().is_empty());
}

fn differs(operand: Operand, n: u64) -> Ocmp {
    Ocmp::unplaced(Relation::Ne, operand, number(n))
}

/// Takes a register down to 0.
fn down(r: u8) -> Code {
    repeat(differs(reg(r), 0), ins(Sub64(reg(r), number(1))))
}

fn bad() -> Code {
    ins(Shl64(A, number(64)))
}

/// Up to fuel 9.
fn searched(job: &Job, limit: u64) -> Vec<String> {
    let code = accept(job).unwrap();
    let reach = Reach {
        fuel: 9,
        budget: 1_000,
    };
    let on = |terms| Tries::new(job, &code, terms, reach);
    let terms = Base.limited(limit);
    let searched = Searched {
        code: &code,
        terms,
        tries: &on(terms),
        unlimited: &on(Base.unlimited()),
    };
    let mut labels = [lowered(&searched), made(&searched)].concat();
    let known = end_labels();
    assert!(labels.iter().all(|label| known.contains(label)));
    labels.sort();
    labels
}

const OUTER: &str = "made by a loop in no other";
const INNER: &str = "made by an inner loop";
const AT_TEST: &str = "made, then stopped at a While's comparison";
const AT_INS: &str = "made, then stopped at an instruction";
const RIGHT_BEHIND: &str = "made by the last test, stopped right behind it";

/// Rax from 1: test, Sub64, test.
#[test]
fn labels_of_a_loop() {
    let job = of_code(down(RAX)).reg(RAX, 1);
    assert_eq!(searched(&job, u64::MAX), [OUTER]);
    assert_eq!(searched(&job, 3), [OUTER]);
    assert_eq!(searched(&job, 2), [OUTER, RIGHT_BEHIND, AT_TEST]);
    assert_eq!(searched(&job, 1), [LOWERED, OUTER, AT_INS]);
    assert_eq!(searched(&job, 0), [LOWERED, OUTER, RIGHT_BEHIND, AT_TEST]);
}

/// No test is met at all where the limit is used up ahead of it.
#[test]
fn labels_ahead_of_a_loop() {
    let job = of_code(block(vec![ins(Add64(A, number(1))), down(RAX)]));
    assert_eq!(searched(&job, 0), [LOWERED]);
    let none = of_code(ins(Add64(A, number(1))));
    assert!(searched(&none, 0).is_empty());
    assert!(searched(&none, 9).is_empty());
}

#[test]
fn labels_of_faults() {
    let wrong = repeat(differs(at(5), 0), block(vec![]));
    let job = of_code(wrong);
    let faults = "made by the last test, fault right behind it";
    assert_eq!(searched(&job, u64::MAX), [OUTER, faults]);
    let in_place = "made, then stopped in place of fault";
    let stopped = [OUTER, RIGHT_BEHIND, AT_TEST, in_place];
    assert_eq!(searched(&job, 0), stopped);
    // Behind the comparison comes what fails.
    let job = of_code(repeat(differs(A, 1), bad()));
    assert_eq!(searched(&job, u64::MAX), [OUTER]);
    assert_eq!(searched(&job, 1), [OUTER, AT_INS, in_place]);
}

/// Rax has two rounds and Rbx none. A loop whose tests are all behind the one that
/// makes it; the other way round; and the loop for Rax inside another.
#[test]
fn labels_of_two_loops() {
    let row = |codes| of_code(block(codes)).reg(RAX, 2);
    let job = row(vec![down(RAX), down(1)]);
    assert_eq!(searched(&job, u64::MAX), [AHEAD, OUTER]);
    // Five steps are the first loop's; one more is the other's.
    assert_eq!(searched(&job, 6), [AHEAD, OUTER]);
    assert_eq!(searched(&job, 5), [OUTER, AT_TEST]);
    assert_eq!(searched(&row(vec![down(1), down(RAX)]), u64::MAX), [OUTER]);
    let code = repeat(differs(A, 0), down(RAX));
    assert_eq!(searched(&of_code(code).reg(RAX, 2), u64::MAX), [INNER]);
}

/// With no fuel that is tried it ends; stopped behind n steps it needs n + 1.
#[test]
fn labels_of_what_has_no_end() {
    let job = of_code(repeat(Ocmp::unplaced(Relation::Eq, A, A), block(vec![])));
    assert!(searched(&job, u64::MAX).is_empty());
    assert!(searched(&job, 9).is_empty());
    let stopped = [ENDED, OUTER, RIGHT_BEHIND, AT_TEST];
    assert_eq!(searched(&job, 8), stopped);
    assert_eq!(searched(&job, 3), stopped);
    let choice = Ocmp::unplaced(Relation::Eq, A, A);
    let chosen = if_else(choice.clone(), block(vec![]), block(vec![]));
    let job = of_code(repeat(choice, chosen));
    let at_choice = "made, then stopped at an IfElse's comparison";
    assert_eq!(searched(&job, 1), [ENDED, OUTER, at_choice]);
}

fn asked(job: &Job, cap: u32, limit: u64) -> String {
    let mut tally = LeastTally::default();
    let least = least_fuel(job, cap, Board.limited(limit));
    tally.asked(Board, cap, &least);
    assert_eq!(tally.compared(), [1, 0]);
    let met = tally.counts.0.into_keys().collect::<Vec<String>>();
    assert!(by_either(&end_labels()).contains(&met[0]));
    met.concat()
}

#[test]
fn labels_of_reports() {
    let job = of_code(block(vec![down(RAX), bad()])).reg(RAX, 1);
    let table = [
        (1, 9, "board: 61"),
        (2, 9, "board: least fuel at the cap, fault"),
        (3, 9, "board: least fuel below the cap, fault"),
        (1, 1, "board: least fuel at the cap, stopped"),
        (2, 1, "board: least fuel below the cap, stopped"),
    ];
    for (cap, limit, expected) in table {
        assert_eq!(asked(&job, cap, limit), expected);
    }
    let done = of_code(down(RAX));
    assert_eq!(asked(&done, 1, 9), "board: least fuel at the cap, done");
    assert_eq!(asked(&done, 2, 9), "board: least fuel below the cap, done");
    let zero = |limit| asked(&of_code(block(vec![ins(Pxor(0, 1)), bad()])), 0, limit);
    assert_eq!(zero(0), "board: no loop test, least fuel 0, stopped");
    assert_eq!(zero(9), "board: no loop test, least fuel 0, fault");
    assert_eq!(
        asked(&plain(Pxor(0, 1)), 7, 9),
        "board: no loop test, least fuel 0, done"
    );
    let mut cut = of_code(bad());
    cut.code.pop();
    assert_eq!(asked(&cut, 7, 9), "board: refused for code");
    let cells = of_code(bad()).cell(0, 7, 0);
    assert_eq!(asked(&cells, 7, 9), "board: refused for cells");
}

#[test]
fn fuels_by_both() {
    let mut tally = LeastTally::default();
    for found in [[Some(2), Some(2)], [None, Some(2)], [None, None]] {
        tally.by_both(&found);
    }
    tally.by_both(&[]);
    assert!(tally.counts.0.is_empty());
    tally.by_both(&[Some(2), Some(3)]);
    assert_eq!(tally.counts.0[ANOTHER], 1);
}
