//! The watch of whole kernels, from the table that was typed by hand and by hand.

use super::*;
use crate::answer::Answer;
use crate::instructions::number as kind_of;
use crate::run::{accept, answer};
use crate::terms::Evaluation::{self, Base, Board};
use crate::terms::EVALUATIONS;
use crate::watch::Watch;
use crate::watch_table::{behind, Open};

/// What is open and where it was marked, going by the table from one instruction
/// of a row to the next.
fn expected(codes: &[Code], evaluation: Evaluation) -> Watch {
    let (mut open, mut mark): (Open, Option<usize>) = ([false; 2], None);
    for code in codes {
        let kind = match &code.node {
            Node::Ins(instruction) => kind_of(instruction) as u8,
            Node::IfElse(..) | Node::While(..) => 0x30,
            Node::Block(_) => continue,
        };
        let by = behind(kind, evaluation, open);
        mark = mark.or(by.marks.then_some(code.place));
        open = by.open;
    }
    Watch {
        mark,
        carry_open: open[0],
        overflow_open: open[1],
    }
}

/// The codes of a row up to where the run ended.
fn row_of(job: &Job, end: Answer) -> Vec<Code> {
    let Node::Block(mut codes) = accept(job).unwrap().node else {
        panic!("a row is a Block");
    };
    match end {
        Answer::Done => {}
        Answer::Fault(_, place) => codes.retain(|code| {
            let fails = matches!(&code.node, Node::IfElse(..) | Node::While(..));
            code.place < place && !fails
        }),
        Answer::Spent(place) => codes.retain(|code| code.place <= place),
        other => panic!("{other:?}"),
    }
    codes
}

#[test]
fn rows_by_the_table() {
    let rows = [all_between(), all_failing()].concat();
    assert_eq!(rows.len(), 4 * 4 * (1 + 27 + 36) + 4 * failing().len());
    for evaluation in EVALUATIONS {
        for job in &rows {
            let outcome = answer(job, evaluation.unlimited());
            let codes = row_of(job, outcome.answer);
            assert_eq!(outcome.watch, expected(&codes, evaluation));
        }
    }
}

#[test]
fn every_kind_is_there() {
    let mut kinds: Vec<usize> = instructions().iter().map(kind_of).collect();
    kinds.sort();
    assert_eq!(kinds, (1..=INSTRUCTION_KINDS).collect::<Vec<usize>>());
    let faults = all_failing();
    let faulted = |job: &Job| matches!(answer(job, Base.unlimited()).answer, Answer::Fault(..));
    assert!(faults.iter().all(faulted));
}

/// All that can be open is reached, three of them without a mark.
#[test]
fn all_that_can_be_open() {
    let seen = opened().map(|codes| {
        let watch = answer(&start(block(codes)), Base.unlimited()).watch;
        (watch.mark, watch.carry_open, watch.overflow_open)
    });
    let unmarked = [
        (None, false, false),
        (None, true, true),
        (None, false, true),
    ];
    assert_eq!(seen[..3], unmarked);
    // Sub64 takes 12 bytes behind the Block's 5.
    assert_eq!(seen[3], (Some(17), true, false));
}

fn marks(jobs: &[Job], evaluation: Evaluation) -> Vec<Option<usize>> {
    let mark = |job: &Job| answer(job, evaluation.unlimited()).watch.mark;
    jobs.iter().map(mark).collect()
}

/// A reader alone, behind Paddd, in a loop and in a choice, which compare two
/// registers, and 30 Blocks deep: behind Sub64, and around both.
#[test]
fn places_of_marks() {
    let each = [None, Some(8), Some(10), Some(14), Some(167), Some(167)];
    for evaluation in EVALUATIONS {
        assert_eq!(marks(&places(), evaluation), each.repeat(9));
    }
}

/// The same for all pairs. In the fourth kernel and in the last the first reader
/// meets closed flags, in the sixth it is in the part that is not taken.
#[test]
fn first_of_two() {
    let jobs = two_readers();
    assert_eq!(jobs.len(), 90);
    for evaluation in EVALUATIONS {
        let marks = marks(&jobs, evaluation);
        let expected = [17, 17, 22, 41, 19, 26, 19, 20, 22, 63].map(Some);
        assert_eq!(marks, expected.repeat(9));
    }
}

/// Which of the eleven loops mark, with fuel 4.
#[test]
fn loops_that_mark() {
    let jobs = rounds();
    let ample: Vec<Job> = jobs.iter().skip(3).step_by(4).cloned().collect();
    let each = [
        true, false, true, false, true, false, false, false, true, true, true,
    ];
    for evaluation in EVALUATIONS {
        let marked: Vec<bool> = marks(&ample, evaluation)
            .iter()
            .map(Option::is_some)
            .collect();
        assert_eq!(marked, each.repeat(3));
        let without: Vec<Job> = jobs.iter().step_by(4).cloned().collect();
        assert!(marks(&without, evaluation).iter().all(Option::is_none));
    }
}

/// Only the board closes overflow by a sum.
#[test]
fn sums_close_on_the_board() {
    let row = [open(), ins(Add64(reg(TARGET), number(1))), read(Adox64)];
    let job = start(block(row.into()));
    assert_eq!(marks(std::slice::from_ref(&job), Base), [Some(29)]);
    assert_eq!(marks(&[job], Board), [None]);
}
