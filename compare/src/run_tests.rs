//! Steps and limits of whole runs, and ends on the board, reckoned by hand.

use super::*;
use crate::answer::render;
use crate::build::*;
use crate::terms::Evaluation::{Base, Board};
use crate::terms::LARGEST_LIMIT;
use crate::tree::Instruction::*;
use crate::tree::{Instruction, Ocmp, Operand, Relation, RAX};

const A: Operand = Operand::Reg(RAX);
const NOWHERE: u64 = 5;

fn compare(relation: Relation, left: Operand, right: Operand) -> Ocmp {
    Ocmp::unplaced(relation, left, right)
}

fn nothing() -> Code {
    block(Vec::new())
}

/// Adds to Rax, in 12 bytes.
fn add(n: u64) -> Code {
    ins(Add64(A, number(n)))
}

/// The answer, the steps and Rax.
fn ended(job: &Job, limit: u64) -> (Answer, u64, u64) {
    let outcome = answer(job, Base.limited(limit));
    let (end, _) = outcome.end.expect("the job is not refused");
    (outcome.answer, outcome.steps, end.regs[usize::from(RAX)])
}

fn stopped(place: usize) -> Answer {
    Answer::Stopped(37, place)
}

/// Rax from 2 down to 0. The comparison is at 5, Sub64 at 17.
fn countdown() -> Job {
    let differs = compare(Relation::Ne, A, number(0));
    let less = ins(Sub64(A, number(1)));
    of_code(repeat(differs, less)).reg(RAX, 2)
}

#[test]
fn a_loop_under_every_limit() {
    let job = countdown().fuel(3);
    let table = [
        (stopped(5), 0, 2),
        (stopped(17), 1, 2),
        (stopped(5), 2, 1),
        (stopped(17), 3, 1),
        (stopped(5), 4, 0),
        (Answer::Done, 5, 0),
        (Answer::Done, 5, 0),
    ];
    for (limit, expected) in table.into_iter().enumerate() {
        assert_eq!(ended(&job, limit as u64), expected, "limit {limit}");
    }
    for limit in [1 << 63, LARGEST_LIMIT] {
        assert_eq!(ended(&job, limit), (Answer::Done, 5, 0));
    }
}

#[test]
fn fuel_is_tested_ahead_of_the_limit() {
    for limit in [0, 1, LARGEST_LIMIT] {
        let none = countdown().fuel(0);
        assert_eq!(ended(&none, limit), (Answer::Spent(0), 0, 2));
    }
    // Both are used up before the third test.
    let two = countdown().fuel(2);
    assert_eq!(ended(&two, 3), (stopped(17), 3, 1));
    assert_eq!(ended(&two, 4), (Answer::Spent(0), 4, 0));
    assert_eq!(ended(&two, 5), (Answer::Spent(0), 4, 0));
    // A loop around nothing: one step for each test.
    let own = compare(Relation::Eq, A, A);
    let idle = of_code(repeat(own, nothing())).fuel(3);
    assert_eq!(ended(&idle, 2), (stopped(5), 2, 0));
    assert_eq!(ended(&idle, 3), (Answer::Spent(0), 3, 0));
}

/// The first Add64 is at 5, the Shl64 at 17, the last Add64 at 29.
#[test]
fn the_limit_is_judged_ahead_of_a_check() {
    let bad = ins(Shl64(A, number(64)));
    let job = of_code(block(vec![add(1), bad, add(1)]));
    assert_eq!(ended(&job, 0), (stopped(5), 0, 0));
    assert_eq!(ended(&job, 1), (stopped(17), 1, 1));
    for limit in [2, 3, LARGEST_LIMIT] {
        assert_eq!(ended(&job, limit), (Answer::Fault(33, 17), 1, 1));
    }
}

/// A comparison's own kind byte is at 9 in an IfElse and at 5 in a While.
#[test]
fn comparisons_that_would_fail() {
    let bad = || compare(Relation::Eq, at(NOWHERE), A);
    let chosen = of_code(if_else(bad(), add(1), add(2)));
    let looped = of_code(repeat(bad(), add(1))).fuel(1);
    for (job, place) in [(chosen, 9), (looped, 5)] {
        assert_eq!(ended(&job, 0), (stopped(place), 0, 0));
        for limit in [1, LARGEST_LIMIT] {
            assert_eq!(ended(&job, limit), (Answer::Fault(31, place), 0, 0));
        }
    }
}

/// The comparison is at 9, the parts are at 21 and 33.
#[test]
fn a_choice_is_one_step_and_its_part() {
    for (relation, place, rax) in [(Relation::Eq, 21, 1), (Relation::Ne, 33, 2)] {
        let condition = compare(relation, A, number(0));
        let job = of_code(if_else(condition, add(1), add(2)));
        assert_eq!(ended(&job, 0), (stopped(9), 0, 0));
        assert_eq!(ended(&job, 1), (stopped(place), 1, 0));
        assert_eq!(ended(&job, 2), (Answer::Done, 2, rax));
    }
}

#[test]
fn blocks_make_no_steps() {
    let empty = of_code(block(vec![nothing(), block(vec![nothing()])]));
    assert_eq!(ended(&empty, 0), (Answer::Done, 0, 0));
    // An empty Block of 5 bytes, then Add64 at 10, then two more Blocks.
    let one = of_code(block(vec![nothing(), add(1), nothing(), nothing()]));
    assert_eq!(ended(&one, 0), (stopped(10), 0, 0));
    assert_eq!(ended(&one, 1), (Answer::Done, 1, 1));
}

/// Mulx64 fails at its second destination, when the first is written.
#[test]
fn an_instruction_that_fails_late_is_no_step() {
    let bad = Mulx64(at(NOWHERE), A, number(1));
    let job = plain(bad).reg(RAX, 7).reg(3, 9);
    assert_eq!(ended(&job, 0), (stopped(0), 0, 7));
    assert_eq!(ended(&job, 1), (Answer::Fault(32, 0), 0, 7));
}

/// The source runs on behind the fault and meets more than the limit.
#[test]
fn what_comes_behind_a_bad_event_meets_no_limit() {
    let bad = ins(Mov64(number(1), A));
    let job = of_code(block(vec![add(1), bad, add(1), add(1), add(1)]));
    let code = accept(&job).unwrap();
    for limit in [2, 3, 4] {
        let followed = follow(&job, &code, 0, Settings::new(0, Base.limited(limit))).unwrap();
        assert_eq!(followed.outcome.answer, Answer::Fault(32, 17));
        assert_eq!((followed.outcome.steps, followed.followed), (1, 5));
    }
}

#[test]
fn a_refused_run_makes_no_step() {
    let cells = of_code(add(1)).cell(0, 7, 0);
    let mut code = of_code(add(1));
    code.code.pop();
    for limit in [0, 1, LARGEST_LIMIT] {
        let outcome = answer(&cells, Base.limited(limit));
        assert_eq!(outcome.answer, Answer::Refused(13, 0));
        assert_eq!((outcome.steps, outcome.end), (0, None));
        let outcome = answer(&code, Base.limited(limit));
        assert_eq!(outcome.answer, Answer::Refused(3, 3));
        assert_eq!((outcome.steps, outcome.end), (0, None));
        assert_eq!(
            render(&answer(&code, Base.limited(limit))),
            "refused 3 at 3\n"
        );
    }
    assert_eq!(answer_bytes(&[]).steps, 0);
}

#[test]
fn texts() {
    let job = countdown().fuel(3).fill(4).flags(9);
    let text = |job: &Job, limit| render(&answer(job, Base.limited(limit)));
    assert_eq!(text(&job, 0), "stopped 37 at 5\nsteps 0\nflags 9\nRax 2\n");
    assert_eq!(text(&job, 2), "stopped 37 at 5\nsteps 2\nflags 4\nRax 1\n");
    assert_eq!(text(&job, 5), "done\nsteps 5\nflags 4\n");
    let spent = text(&job.fuel(2), 4);
    assert_eq!(spent, "spent at 0\nsteps 4\nflags 4\n");
}

/// Rax is 2^63-1, so the first sum leaves the range. It is at 5, what comes next
/// at 17.
fn beyond(next: Instruction) -> Job {
    let job = of_code(block(vec![add(1), ins(next)]));
    job.reg(RAX, u64::MAX / 2).flags(4).fill(8)
}

const RAX_AFTER: &str = "Rax 9223372036854775808\n";

#[test]
fn the_overflow_of_a_sum_is_read() {
    let job = beyond(Adox64(Operand::Reg(1), number(0)));
    let text = |terms| render(&answer(&job, terms));
    let done = format!("done\nsteps 2\nflags 4\n{RAX_AFTER}");
    assert_eq!(text(Base.unlimited()), done);
    let done = format!("done\nsteps 2\nflags 8\n{RAX_AFTER}Rbx 1\n");
    assert_eq!(text(Board.unlimited()), done);
    assert_eq!(text(Board.limited(2)), done);
    let stopped = format!("stopped 37 at 17\nsteps 1\nflags 4\n{RAX_AFTER}");
    assert_eq!(text(Base.limited(1)), stopped);
    let stopped = format!("stopped 37 at 17\nsteps 1\nflags 2056\n{RAX_AFTER}");
    assert_eq!(text(Board.limited(1)), stopped);
    let untouched = "stopped 37 at 5\nsteps 0\nflags 4\nRax 9223372036854775807\n";
    assert_eq!(text(Board.limited(0)), untouched);
}

/// A sum that fails leaves the flags of the one before.
#[test]
fn faults_behind_a_sum_on_the_board() {
    let table = [
        (Shl64(A, number(64)), 33),
        (AddCarry64(Operand::Reg(7), number(1)), 32),
        (Add64(number(1), number(1)), 32),
        (Add64(A, at(NOWHERE)), 31),
        (AddCarry64(at_reg(1, -1), A), 36),
    ];
    for (bad, number) in table {
        let text = render(&answer(&beyond(bad), Board.unlimited()));
        let head = format!("fault {number} at 17\nsteps 1\n");
        assert_eq!(text, format!("{head}flags 2056\n{RAX_AFTER}"));
    }
}

/// By the base the loop behind is not entered, on the board it has no end.
#[test]
fn fuel_that_only_the_board_needs() {
    let b = Operand::Reg(1);
    let loops = repeat(compare(Relation::Eq, b, number(1)), nothing());
    let codes = vec![add(1), ins(Adox64(b, number(0))), loops];
    let job = of_code(block(codes)).reg(RAX, u64::MAX / 2).fuel(3);
    let end = |terms| {
        let outcome = answer(&job, terms);
        (outcome.answer, outcome.steps)
    };
    assert_eq!(end(Base.unlimited()), (Answer::Done, 3));
    assert_eq!(end(Board.unlimited()), (Answer::Spent(29), 5));
    assert_eq!(end(Board.limited(4)), (stopped(34), 4));
    assert_eq!(end(Board.limited(5)), (Answer::Spent(29), 5));
}
