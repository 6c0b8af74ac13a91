//! The least fuel, the end and the steps of every kernel, worked out by hand.

use super::*;
use crate::answer::Answer;
use crate::least::{least_fuel, Report};
use crate::terms::Evaluation::{self, Base, Board};
use crate::terms::EVALUATIONS;

/// How a run ends with the least fuel, without its place.
#[derive(Clone, Copy, Debug, PartialEq)]
enum End {
    Done,
    Fault(u8),
    Stopped,
}

use End::{Done, Fault, Stopped};

/// More than any kernel needs that has an end.
const AMPLE: u32 = 400;

/// The least fuel, the end and the steps; None where no fuel is enough.
fn least(job: &Job, evaluation: Evaluation, limit: u64) -> Option<(u32, End, u64)> {
    let least = least_fuel(job, AMPLE, evaluation.limited(limit));
    let Report::Fuel(fuel) = least.report else {
        assert!(least.outcome.is_spent());
        return None;
    };
    let end = match least.outcome.answer {
        Answer::Done => Done,
        Answer::Fault(number, _) => Fault(number),
        Answer::Stopped(37, _) => Stopped,
        other => panic!("{other:?}"),
    };
    Some((fuel, end, least.outcome.steps))
}

fn hold(jobs: Vec<Job>, expected: &[(u32, End, u64)]) {
    for evaluation in EVALUATIONS {
        let ends = jobs.iter().map(|job| least(job, evaluation, u64::MAX));
        let ends: Option<Vec<_>> = ends.collect();
        assert_eq!(ends.as_deref(), Some(expected));
    }
}

/// A loop of r rounds has r + 1 tests, each one deeper than the one before.
#[test]
fn one_loop() {
    let expected = [
        (1, Done, 1),
        (2, Done, 3),
        (3, Done, 5),
        (4, Done, 7),
        (1, Done, 1),
        (1, Done, 1),
        (2, Done, 3),
        (4, Done, 10),
        (2, Done, 5),
    ];
    hold(alone(), &expected);
}

#[test]
fn rows_of_loops() {
    let expected = [
        (4, Done, 10),
        (4, Done, 10),
        (4, Done, 11),
        (2, Done, 7),
        (4, Done, 9),
    ];
    hold(in_a_row(), &expected);
}

/// In round i, counted from 0, a body has i + 1 less than there was.
#[test]
fn nests_of_loops() {
    let expected = [
        // Three rounds in round 0: behind 1 + 3 tests. Rounds of 11 and 5 steps.
        (5, Done, 17),
        // One round in round 2: behind 3 + 1. Rounds of 6 steps.
        (5, Done, 19),
        // One round in round 1: behind 2 + 1. Rounds of 5 and 7 steps.
        (4, Done, 13),
        // Three rounds in round 1: behind 2 + 3. Rounds of 3, 11 and 3 steps.
        (6, Done, 18),
        // The test that ends the outer loop: behind 3. Rounds of 4, 3 and 3 steps.
        (4, Done, 11),
        // One round in round 0 in round 0: behind 1 + 1 + 1.
        (4, Done, 11),
    ];
    hold(in_each_other(), &expected);
}

#[test]
fn parts() {
    let expected = [
        (4, Done, 8),
        (4, Done, 8),
        (2, Done, 4),
        (4, Done, 8),
        // One round in round 2: behind 3 + 1. Rounds of 4, 4 and 6 or 7 steps.
        (5, Done, 15),
        (5, Done, 16),
    ];
    hold(in_parts(), &expected);
}

#[test]
fn loops_that_are_not_reached() {
    let expected = [
        (0, Done, 0),
        (0, Done, 2),
        (0, Fault(33), 1),
        (0, Done, 2),
        (0, Fault(33), 0),
        (0, Fault(31), 1),
        (1, Done, 1),
        (2, Fault(33), 3),
    ];
    hold(not_reached(), &expected);
}

#[test]
fn faults() {
    let expected = [
        (1, Fault(33), 1),
        (2, Fault(33), 6),
        (4, Fault(33), 7),
        (1, Fault(31), 0),
        (1, Fault(31), 0),
        (1, Fault(36), 0),
        (2, Fault(31), 2),
        // The inner loop in round 1: behind 2.
        (3, Fault(31), 6),
        (2, Fault(31), 3),
    ];
    hold(failing(), &expected);
}

#[test]
fn ends_that_are_written() {
    hold(written(), &[(3, Done, 9); 3]);
    hold(far(), &[(32, Done, 63), (301, Done, 601)]);
}

/// With 2 as the counter, and with the overflow of the old flags or of the sum.
#[test]
fn overflows() {
    let ends = |evaluation| {
        let ends = by_overflow();
        let ends = ends.iter().map(|job| least(job, evaluation, u64::MAX));
        ends.collect::<Vec<_>>()
    };
    let (two, three) = (Some((3, Done, 7)), Some((4, Done, 9)));
    assert_eq!(ends(Base), [two, three, Some((1, Done, 3))]);
    assert_eq!(ends(Board), [three, two, None]);
}

/// With a limit of n the step that would be number n + 1 is stopped, which may be
/// the comparison of a test.
#[test]
fn only_a_limit_ends_them() {
    // Their steps between tests; the tests are met 0, 1, 2 and so on deep.
    let table = [
        // Each test is a step.
        [1, 2, 3, 4, 5, 6],
        // Between two tests there is another step.
        [1, 1, 2, 2, 3, 3],
        // An inner loop's tests go on where the outer's one was.
        [1, 2, 3, 4, 5, 6],
        // A step; a loop of one round: test, less, test; then tests from the start.
        [0, 1, 1, 2, 2, 2],
        // Test, a loop of one round, then a test of each, one deeper each round.
        [1, 2, 2, 3, 3, 3],
    ];
    for (job, fuels) in without_end().iter().zip(table) {
        assert_eq!(least(job, Base, u64::MAX), None);
        for (limit, fuel) in (0..).zip(fuels) {
            assert_eq!(least(job, Base, limit), Some((fuel, Stopped, limit)));
        }
    }
}

/// The least fuels under each limit up to where they are that of the whole run.
fn hold_under_limits(job: &Job, fuels: &[u32]) {
    for (limit, fuel) in (0..).zip(fuels) {
        let expected = Some((*fuel, Stopped, limit));
        assert_eq!(least(job, Base, limit), expected, "limit {limit}");
    }
}

/// The tests of the deeper loop are steps 1, 3, 5 and 7 where it is first, and 4, 6,
/// 8 and 10 where it is second, behind the tests 1 and 3 of the other.
#[test]
fn rows_under_limits() {
    let [first, second, ..] = &in_a_row()[..] else {
        panic!("there are more");
    };
    hold_under_limits(first, &[1, 1, 2, 2, 3, 3, 4, 4, 4, 4]);
    hold_under_limits(second, &[1, 1, 2, 2, 2, 2, 2, 3, 3, 4]);
}

/// The outer loop's tests are steps 1, 12 and 17; the inner one's 3, 5, 7 and 9 in
/// round 0, one to four deep, and 14 in round 1, two deep.
#[test]
fn a_nest_under_limits() {
    let nest = &in_each_other()[0];
    let deepest = [vec![1, 1, 2, 2, 3, 3, 4, 4], vec![5; 9]].concat();
    hold_under_limits(nest, &deepest);
}

/// A limit of as many steps as come ahead of a fault: Stopped in its place, with the
/// same fuel, also where the fault comes right behind a test.
#[test]
fn limits_in_place_of_faults() {
    for job in failing() {
        let (fuel, _, steps) = least(&job, Base, u64::MAX).unwrap();
        assert_eq!(least(&job, Base, steps), Some((fuel, Stopped, steps)));
    }
}
