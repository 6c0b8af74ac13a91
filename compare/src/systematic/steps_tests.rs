//! The ends and steps of every group, worked out by hand.

use super::*;
use crate::answer::Answer;
use crate::run::answer_bytes;

/// How a run ends, without its place.
#[derive(Clone, Copy, Debug, PartialEq)]
enum End {
    Done,
    Fault(u8),
    /// With the place: it tells which loop has no fuel.
    Spent(usize),
}

use End::{Done, Fault, Spent};

fn ends(jobs: Vec<Job>) -> Vec<(End, u64)> {
    let end = |job: Job| {
        let outcome = answer_bytes(&job.to_bytes());
        let end = match outcome.answer {
            Answer::Done => Done,
            Answer::Fault(number, _) => Fault(number),
            Answer::Spent(place) => Spent(place),
            other => panic!("{other:?}"),
        };
        (end, outcome.steps)
    };
    jobs.into_iter().map(end).collect()
}

#[test]
fn rows_and_faults() {
    let expected = [
        (Done, 0),
        (Done, 0),
        (Done, 1),
        (Done, 3),
        (Done, 3),
        (Fault(33), 0),
        (Fault(33), 0),
        (Fault(33), 0),
        (Fault(33), 1),
        (Fault(33), 3),
        (Fault(32), 0),
        (Fault(32), 1),
    ];
    assert_eq!(ends(rows()), expected);
    let behind_two = [31, 32, 33, 34, 35, 36].map(|number| (Fault(number), 2));
    assert_eq!(ends(faults()), behind_two);
}

/// LEFT is 2 and RIGHT 1, so Ne, Ge and Gt hold: six comparisons, three steps.
#[test]
fn every_kind() {
    assert_eq!(ends(kinds()), [(Done, 27), (Done, 9)]);
}

#[test]
fn parts() {
    let expected = [
        (Done, 2),
        (Done, 1),
        (Done, 2),
        (Done, 3),
        (Fault(33), 1),
        (Done, 4),
        (Done, 1),
        (Done, 3),
        (Fault(33), 2),
        (Done, 3),
        (Fault(31), 0),
        (Fault(31), 1),
        (Fault(31), 1),
    ];
    assert_eq!(ends(choices()), expected);
}

#[test]
fn loops() {
    let expected = [
        (Spent(0), 0),
        (Done, 1),
        (Spent(0), 0),
        (Spent(0), 2),
        (Done, 3),
        (Spent(0), 4),
        (Spent(0), 6),
        (Done, 7),
        (Done, 5),
        (Done, 601),
        (Spent(0), 1),
        (Spent(0), 5),
        (Spent(0), 6),
        (Spent(17), 1),
        (Done, 3),
        (Done, 8),
        (Spent(5), 4),
        // The first loop, of 34 bytes, ends after three steps.
        (Spent(39), 7),
    ];
    assert_eq!(ends(rounds()), expected);
}

#[test]
fn loops_that_fail() {
    let expected = [
        (Spent(0), 0),
        (Fault(31), 0),
        (Fault(31), 1),
        (Spent(0), 2),
        (Fault(31), 2),
        (Fault(33), 1),
        (Spent(0), 4),
        (Fault(33), 6),
    ];
    assert_eq!(ends(failing_rounds()), expected);
}

/// The inner loop of two is at 34, behind While 5, comparison 12, Block 5 and
/// Mov64 12. The loops of three stand 10 apart.
#[test]
fn loops_in_loops() {
    let expected = [
        (Spent(0), 0),
        (Spent(34), 2),
        (Spent(34), 4),
        (Spent(34), 10),
        (Done, 13),
        (Done, 13),
        (Spent(0), 11),
        (Spent(0), 0),
        (Spent(10), 1),
        (Spent(20), 2),
        (Spent(20), 4),
        (Spent(20), 6),
        (Spent(68), 6),
        (Done, 11),
    ];
    assert_eq!(ends(nests()), expected);
}

#[test]
fn cells_and_xmm_words() {
    let expected = [(Fault(32), 2), (Fault(34), 2), (Done, 5)];
    assert_eq!(ends(written()), expected);
}

/// 31 structures around one step; the innermost loop has fuel for one round.
#[test]
fn deep_codes() {
    let expected = [(Done, 1), (Done, 32), (Spent(300), 32)];
    assert_eq!(ends(depths()), expected);
}
