//! What each group ends with by the base evaluation and on the board, worked out
//! by hand.

use super::*;
use crate::answer::Answer;
use crate::run::answer;
use crate::terms::Evaluation::{self, Base, Board};

struct End {
    answer: Answer,
    steps: u64,
    regs: [u64; 16],
    xmm: [u32; 4],
    flags: u64,
    cell: Option<u64>,
}

fn ends(jobs: &[Job], evaluation: Evaluation) -> Vec<End> {
    let end = |job: &Job| {
        let outcome = answer(job, evaluation.unlimited());
        let (state, cells) = outcome.end.expect("no job is refused");
        End {
            answer: outcome.answer,
            steps: outcome.steps,
            regs: state.regs,
            xmm: state.xmms[1],
            flags: state.flags,
            cell: cells.first().map(|c| c.value),
        }
    };
    jobs.iter().map(end).collect()
}

/// What was added to OTHER, for runs that are Done.
fn added(jobs: &[Job], evaluation: Evaluation) -> Vec<u64> {
    let ends = ends(jobs, evaluation);
    assert!(ends.iter().all(|end| end.answer == Answer::Done));
    let other = |end: &End| end.regs[usize::from(OTHER)] - UNREAD;
    ends.iter().map(other).collect()
}

#[test]
fn adox_right_behind_a_sum() {
    let jobs = right_behind();
    let board = [[1; 8], [0; 8]].concat();
    assert_eq!(added(&jobs, Board), board.repeat(2));
    assert_eq!(added(&jobs, Base), [0, 0, 1, 1].repeat(8));
}

/// First set, then cleared, behind what keeps, fills and clears.
#[test]
fn codes_between() {
    let jobs = all_between();
    let board = [[1, 0].repeat(15), [0, 1].repeat(11), [0, 0].repeat(5)];
    assert_eq!(added(&jobs, Board), board.concat());
    // By the base Add64 and AddCarry64 do not clear.
    let cleared = [0, 0, 0, 0, 0, 0, 0, 1, 0, 1].to_vec();
    let base = [[0, 1].repeat(15), [0, 1].repeat(11), cleared];
    assert_eq!(added(&jobs, Base), base.concat());
}

/// Overflow and carry of the highest word, then that word itself; the carry was
/// added to 4.
#[test]
fn sums_of_three_words() {
    let jobs = long_sums();
    let each = |ones: [u64; 5]| ones.map(|n| [n; 4]).concat();
    assert_eq!(added(&jobs, Board), each([1, 0, 0, 1, 0]));
    assert_eq!(added(&jobs, Base), each([1; 5]));
    for evaluation in [Base, Board] {
        let ends = ends(&jobs, evaluation);
        let carries: Vec<u64> = ends
            .iter()
            .map(|e| e.regs[usize::from(RIGHT)] - 4)
            .collect();
        assert_eq!(carries, each([0, 0, 1, 1, 1]));
        let words: Vec<u64> = ends.iter().map(|e| e.regs[10]).collect();
        let highest = [(LEAST, LARGEST), (LARGEST, LARGEST), (LEAST, LEAST)];
        let highest = [&highest[..], &[(LARGEST, LEAST), (0, TOP)]].concat();
        let in_turn = |(to_register, before)| [to_register, to_register, before, before];
        let expected: Vec<u64> = highest.into_iter().flat_map(in_turn).collect();
        assert_eq!(words, expected);
    }
}

#[test]
fn every_kind_of_operand() {
    assert_eq!(added(&operands(), Board), [1, 0].repeat(40));
    assert_eq!(added(&operands(), Base), [1, 1].repeat(40));
    let met = [[1, 1, 1].repeat(6), [0, 1, 0].repeat(8)].concat();
    assert_eq!(added(&meetings(), Board), met);
    assert_eq!(added(&meetings(), Base), [1, 1, 1].repeat(14));
}

/// One more in the first job of each pair on the board, in the second by the
/// base; hands back the pairs in the order of the board.
fn with_and_without(jobs: &[Job]) -> Vec<[End; 2]> {
    let mut pairs = Vec::new();
    for pair in jobs.chunks(2) {
        let [on_board, by_base] = [Board, Base].map(|e| ends(pair, e));
        let [a, b]: [End; 2] = on_board.try_into().ok().unwrap();
        let [d, c]: [End; 2] = by_base.try_into().ok().unwrap();
        for (one, other) in [(&a, &c), (&b, &d)] {
            assert_eq!((one.answer, one.steps), (other.answer, other.steps));
            assert_eq!(one.cell, other.cell);
            assert_eq!(one.xmm, other.xmm);
        }
        pairs.push([a, b]);
    }
    pairs
}

#[test]
fn cells_xmm_words_parts_and_rounds() {
    let pairs = with_and_without(&effects());
    let cells: Vec<Option<u64>> = pairs[..2].iter().flatten().map(|e| e.cell).collect();
    assert_eq!(cells, [Some(21), Some(20), Some(21), Some(20)]);
    let [one, none] = &pairs[2];
    assert_eq!((one.xmm, none.xmm), ([1, 2, 21, 0], [1, 2, 20, 0]));
    let [one, none] = &pairs[3];
    let other = usize::from(OTHER);
    assert_eq!((one.regs[other], none.regs[other]), (1, 2));
    let [one, none] = &pairs[4];
    assert_eq!((one.steps, none.steps), (7, 5));
    // The loop stands behind a Block's 5 bytes and instructions of 12.
    let [one, none] = &pairs[5];
    assert_eq!(one.answer, Answer::Spent(41));
    assert_eq!((none.answer, none.steps), (Answer::Done, 4));
    assert_eq!(pairs.len(), 6);
}

/// The number of a fault, 0 for Done.
fn number(end: &End) -> u8 {
    match end.answer {
        Answer::Done => 0,
        Answer::Fault(number, _) => number,
        other => panic!("{other:?}"),
    }
}

#[test]
fn faults_that_go_by_an_overflow() {
    let pairs = with_and_without(&faults_by_it());
    let numbers: Vec<[u8; 2]> = pairs.iter().map(|p| p.each_ref().map(number)).collect();
    let expected = [
        [31, 0],
        [32, 0],
        [32, 0],
        [33, 0],
        [36, 32],
        [31, 36],
        [34, 0],
        [35, 0],
        [31, 0],
    ];
    assert_eq!(numbers, expected);
}

/// The flags are those of the first sum, which leaves the range in every other
/// job; by the base all but the carry are old.
#[test]
fn sums_that_fault_leave_the_flags() {
    let jobs = faults_of_sums();
    let sources = [31, 31, 31, 31, 36, 36];
    let others = [32, 32, 32, 32, 36, 36, 32, 32, 31, 36];
    let expected = [&sources[..], &others].concat();
    for evaluation in [Base, Board] {
        let ends = ends(&jobs, evaluation);
        let numbers: Vec<u8> = ends.iter().map(number).collect();
        assert_eq!(numbers, expected);
        for (turn, end) in ends.iter().enumerate() {
            let flags = match (evaluation, turn % 2) {
                (Base, _) => (1 << 63) + 2052,
                (Board, 0) => (1 << 62) + 2058,
                (Board, _) => (1 << 62) + 10,
            };
            assert_eq!((end.steps, end.flags), (1, flags), "{turn}");
        }
    }
}

/// What was read and the steps, for a count of rounds, a search and a last look;
/// fuel is for nine rounds.
#[test]
fn loops() {
    let table = |evaluation| -> Vec<(u64, u64)> {
        let ends = ends(&rounds(), evaluation);
        let told = |end: &End| (end.regs[usize::from(OTHER)] - UNREAD, end.steps);
        ends.iter().map(told).collect()
    };
    let without = [(1, 17), (1, 7), (0, 14)].repeat(2);
    let with = [(1, 17), (1, 7), (1, 14)].repeat(2);
    assert_eq!(table(Board), [without, with].concat().repeat(2));
    let without = [(0, 17), (0, 27), (0, 14)].repeat(2);
    let with = [(4, 17), (1, 4), (1, 14)].repeat(2);
    assert_eq!(table(Base), [without, with].concat().repeat(2));
    let spent = |end: &&End| matches!(end.answer, Answer::Spent(0));
    assert_eq!(ends(&rounds(), Base).iter().filter(spent).count(), 4);
    assert_eq!(ends(&rounds(), Board).iter().filter(spent).count(), 0);
}
