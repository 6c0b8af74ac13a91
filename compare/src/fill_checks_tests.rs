//! That a watch which is not the run's does not hold.

use super::*;
use crate::build::*;
use crate::run::{accept, answer};
use crate::terms::{EVALUATIONS, LARGEST_LIMIT};
use crate::tree::Instruction::{self, *};
use crate::tree::Reg;

const A: Reg = 0;
const B: Reg = 1;

fn row(instructions: &[Instruction]) -> Job {
    of_code(block(instructions.iter().copied().map(ins).collect())).fill(5)
}

/// Whether the outcome holds with its watch changed so, by each evaluation.
fn holds(job: &Job, change: fn(&mut Outcome)) -> Vec<bool> {
    let code = accept(job).unwrap();
    let held = |evaluation: Evaluation| {
        let mut outcome = answer(job, evaluation.unlimited());
        change(&mut outcome);
        let watched = Watched {
            job,
            code: &code,
            evaluation,
            other: 2048,
        };
        watched.check(&outcome, LARGEST_LIMIT).is_ok()
    };
    EVALUATIONS.map(held).to_vec()
}

/// Both are open at the end, and nothing was read.
#[test]
fn unmarked_runs() {
    let job = row(&[Xor64(reg(A), reg(B)), Adcx64(reg(A), reg(B)), Paddd(1, 2)]);
    assert_eq!(holds(&job, |_| {}), [true, true]);
    let changes: [fn(&mut Outcome); 5] = [
        |o| o.watch.carry_open = false,
        |o| o.watch.overflow_open = false,
        |o| o.watch.mark = Some(0),
        |o| o.watch.mark = Some(5),
        |o| o.watch.mark = Some(10),
    ];
    for change in changes {
        assert_eq!(holds(&job, change), [false, false]);
    }
    let closed = row(&[Sub64(reg(A), reg(B)), Xor64(reg(A), reg(B))]);
    assert_eq!(holds(&closed, |_| {}), [true, true]);
    assert_eq!(
        holds(&closed, |o| o.watch.carry_open = true),
        [false, false]
    );
    // The fill word has no overflow, nor have the flags; the complement tells.
    assert_eq!(
        holds(&closed, |o| o.watch.overflow_open = true),
        [false, false]
    );
}

/// Sub64 is at 5, Adcx64 at 10 and Adox64 at 15. Each reads; the mark is at 10.
#[test]
fn marked_runs() {
    let job = row(&[
        Sub64(reg(A), reg(B)),
        Adcx64(reg(A), reg(B)),
        Adox64(reg(A), reg(B)),
    ]);
    assert_eq!(holds(&job, |_| {}), [true, true]);
    for place in [0, 5, 15, 20] {
        let code = accept(&job).unwrap();
        for evaluation in EVALUATIONS {
            let mut outcome = answer(&job, evaluation.unlimited());
            outcome.watch.mark = Some(place);
            let watched = Watched {
                job: &job,
                code: &code,
                evaluation,
                other: 2048,
            };
            assert!(watched.check(&outcome, LARGEST_LIMIT).is_err());
        }
    }
    // The fill word's carry went to Rax, so it cannot be unmarked.
    assert_eq!(holds(&job, |o| o.watch.mark = None), [false, false]);
    // The flags have no carry at the end, the fill word has.
    assert_eq!(holds(&job, |o| o.watch.carry_open = true), [false, false]);
}

/// The fill word's carry decides how often the loop goes round.
#[test]
fn longer_runs_do_not_follow() {
    use crate::tree::{Ocmp, Relation};
    let endless = Ocmp::unplaced(Relation::Eq, reg(B), number(1));
    let codes = vec![
        ins(Paddd(1, 2)),
        ins(Adcx64(reg(B), number(0))),
        repeat(endless, block(Vec::new())),
    ];
    let job = of_code(block(codes)).fuel(u32::MAX).fill(4);
    assert_eq!(holds(&job, |_| {}), [true, true]);
    assert_eq!(holds(&job, |o| o.watch.mark = None), [false, false]);
}
