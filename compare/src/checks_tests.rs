//! That the checks tell the evaluations apart.

use super::*;
use crate::build::{number, plain, reg};
use crate::run::answer;
use crate::terms::EVALUATIONS;
use crate::tree::Instruction::*;
use crate::tree::RAX;
use Evaluation::{Base, Board};

/// P2, whose flags are 2048 by the base evaluation and 0 on the board.
fn p2() -> Job {
    let job = plain(Add64(reg(RAX), number(1)));
    job.reg(RAX, 1).flags(2048)
}

#[test]
fn an_outcome_of_the_other_evaluation_does_not_hold() {
    let job = p2();
    let code = accept(&job).unwrap();
    for (evaluation, other) in [(Base, Board), (Board, Base)] {
        let run = Run {
            job: &job,
            code: &code,
            evaluation,
            salt: 5,
        };
        let (own, wrong) = [evaluation, other]
            .map(|e| answer(&job, e.unlimited()))
            .into();
        assert_eq!(run.check(&own), Ok(()));
        assert!(run.check(&wrong).is_err());
    }
}

#[test]
fn checked_answers() {
    let mut cut = p2();
    cut.code.pop();
    for (evaluation, flags) in EVALUATIONS.into_iter().zip([2048, 0]) {
        let (outcome, sums) = checked_answer(&p2(), evaluation, 5).unwrap();
        assert_eq!(outcome.end.unwrap().0.flags, flags);
        assert_eq!(sums.completed.len(), 1);
        let (outcome, sums) = checked_answer(&cut, evaluation, 5).unwrap();
        assert_eq!(outcome.answer, Answer::Refused(3, 3));
        assert!(sums.completed.is_empty());
    }
}

/// P2's ends differ by its sum; without one they must not.
#[test]
fn evaluations_differ_by_sums_alone() {
    let base = answer(&p2(), Base.unlimited());
    let (board, sums) = checked_answer(&p2(), Board, 5).unwrap();
    assert_ne!(base, board);
    assert_eq!(only_sums_differ(&base, &board, &sums), Ok(()));
    let none = SumLog::default();
    assert!(only_sums_differ(&base, &board, &none).is_err());
    assert_eq!(only_sums_differ(&base, &base, &none), Ok(()));
}
