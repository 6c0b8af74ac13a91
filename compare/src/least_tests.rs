//! Least fuels, their answers and ends, reckoned by hand.

use super::*;
use crate::answer::Answer;
use crate::build::*;
use crate::terms::Evaluation::Base;
use crate::terms::EVALUATIONS;
use crate::tree::Instruction::*;
use crate::tree::{Ocmp, Operand, Relation, RAX};

const A: Operand = Operand::Reg(RAX);
const ANY: Reach = Reach {
    fuel: u32::MAX,
    budget: u64::MAX,
};

/// P14: Rax down to 0. The comparison is at 5, Sub64 at 17.
fn countdown(rax: u64) -> Job {
    let differs = Ocmp::unplaced(Relation::Ne, A, number(0));
    let less = ins(Sub64(A, number(1)));
    of_code(repeat(differs, less)).reg(RAX, rax)
}

/// The report, the answer, the steps and Rax.
fn ended(least: &Least) -> (Report, Answer, u64, u64) {
    let Outcome {
        answer, steps, end, ..
    } = &least.outcome;
    let (end, _) = end.as_ref().expect("the job is not refused");
    (least.report, *answer, *steps, end.regs[usize::from(RAX)])
}

fn fuel_and_end(job: &Job, cap: u32, limit: u64) -> (Report, Answer, u64, u64) {
    ended(&least_fuel(job, cap, Base.limited(limit)))
}

#[test]
fn a_countdown_under_every_cap() {
    let spent = |steps, rax| (Report::CapSpent(61), Answer::Spent(0), steps, rax);
    let table = [spent(0, 3), spent(2, 2), spent(4, 1), spent(6, 0)];
    let job = countdown(3);
    for (cap, expected) in table.into_iter().enumerate() {
        assert_eq!(fuel_and_end(&job, cap as u32, 100), expected);
    }
    for cap in [4, 5, 6, 1 << 31, u32::MAX] {
        let done = (Report::Fuel(4), Answer::Done, 7, 0);
        assert_eq!(fuel_and_end(&job, cap, 100), done);
        assert_eq!(fuel_and_end(&job, cap, u64::MAX), done);
    }
}

/// The job's fuel is neither a cap nor a fuel to begin with.
#[test]
fn the_jobs_own_fuel_is_not_looked_at() {
    for own in [0, 1, 3, 9, u32::MAX] {
        let job = countdown(2).fuel(own);
        let least = fuel_and_end(&job, 7, u64::MAX);
        assert_eq!(least, (Report::Fuel(3), Answer::Done, 5, 0));
        let spent = fuel_and_end(&job, 2, u64::MAX);
        assert_eq!(spent, (Report::CapSpent(61), Answer::Spent(0), 4, 0));
    }
}

/// Each test takes one fuel, also where the limit is used up right behind it.
#[test]
fn a_countdown_under_every_limit() {
    let stopped = |fuel, place, steps, rax| {
        let answer = Answer::Stopped(37, place);
        (Report::Fuel(fuel), answer, steps, rax)
    };
    let table = [
        stopped(1, 5, 0, 2),
        stopped(1, 17, 1, 2),
        stopped(2, 5, 2, 1),
        stopped(2, 17, 3, 1),
        stopped(3, 5, 4, 0),
        (Report::Fuel(3), Answer::Done, 5, 0),
        (Report::Fuel(3), Answer::Done, 5, 0),
    ];
    for (limit, expected) in table.into_iter().enumerate() {
        let Report::Fuel(fuel) = expected.0 else {
            panic!("{expected:?}");
        };
        for cap in [fuel, fuel + 1, u32::MAX] {
            let least = fuel_and_end(&countdown(2), cap, limit as u64);
            assert_eq!(least, expected, "limit {limit}");
        }
        let (report, answer, ..) = fuel_and_end(&countdown(2), fuel - 1, limit as u64);
        assert_eq!(
            (report, answer),
            (Report::CapSpent(61), Answer::Spent(0)),
            "limit {limit}"
        );
    }
}

/// Without a loop there is nothing that fuel is for.
#[test]
fn no_loop_test() {
    let add = || ins(Add64(A, number(1)));
    let bad = ins(Shl64(A, number(64)));
    let unreached = countdown(1);
    let code = accept(&unreached).unwrap();
    let table = [
        (block(vec![]), 0, Answer::Done, 0, 0),
        (add(), 9, Answer::Done, 1, 1),
        (add(), 0, Answer::Stopped(37, 0), 0, 0),
        // Add64 at 5, what comes next at 17.
        (
            block(vec![add(), bad, code.clone()]),
            9,
            Answer::Fault(33, 17),
            1,
            1,
        ),
        (block(vec![add(), code]), 0, Answer::Stopped(37, 5), 0, 0),
    ];
    for (code, limit, answer, steps, rax) in table {
        for cap in [0, 1, u32::MAX] {
            let least = fuel_and_end(&of_code(code.clone()), cap, limit);
            assert_eq!(least, (Report::Fuel(0), answer, steps, rax));
        }
    }
}

/// A comparison that fails right behind its loop's test.
#[test]
fn a_test_that_a_fault_follows() {
    let wrong = Ocmp::unplaced(Relation::Eq, at(5), A);
    let job = of_code(repeat(wrong, block(vec![])));
    let none = (Report::CapSpent(61), Answer::Spent(0), 0, 0);
    let stopped = (Report::Fuel(1), Answer::Stopped(37, 5), 0, 0);
    let fault = (Report::Fuel(1), Answer::Fault(31, 5), 0, 0);
    for (limit, expected) in [(0, stopped), (1, fault), (u64::MAX, fault)] {
        assert_eq!(fuel_and_end(&job, 0, limit), none);
        assert_eq!(fuel_and_end(&job, 1, limit), expected);
        assert_eq!(fuel_and_end(&job, u32::MAX, limit), expected);
    }
}

/// A loop around nothing has no end, but under a limit it has.
#[test]
fn a_loop_that_only_the_limit_ends() {
    let own = Ocmp::unplaced(Relation::Eq, A, A);
    let job = of_code(repeat(own, block(vec![])));
    for cap in 0..9 {
        let spent = (Report::CapSpent(61), Answer::Spent(0), cap, 0);
        assert_eq!(fuel_and_end(&job, cap as u32, u64::MAX), spent);
        assert_eq!(fuel_and_end(&job, cap as u32, cap), spent);
        let stopped = (Report::Fuel(cap as u32 + 1), Answer::Stopped(37, 5), cap, 0);
        assert_eq!(fuel_and_end(&job, u32::MAX, cap), stopped);
    }
}

#[test]
fn refusals_come_first() {
    let mut cut = countdown(3);
    cut.code.pop();
    let cells = countdown(3).cell(8, 64, 1).cell(9, 64, 1);
    let mut both = cells.clone();
    both.code.clear();
    let places = [(cut, 6, 0), (cells, 15, 1), (both, 1, 0)];
    for (job, number, place) in places {
        for evaluation in EVALUATIONS {
            for (cap, limit) in [(0, 0), (3, 9), (u32::MAX, u64::MAX)] {
                let least = least_fuel(&job, cap, evaluation.limited(limit));
                assert_eq!(least, Least::refused(Trouble { number, place }));
                assert_eq!(least.outcome.answer, Answer::Refused(number, place));
                assert_eq!((least.outcome.steps, &least.outcome.end), (0, &None));
            }
        }
    }
}

/// Fuel 0 to 3 have 0, 2, 4 and 5 to follow, and each try is one more.
#[test]
fn tries_reach_so_far() {
    let job = countdown(2);
    let code = accept(&job).unwrap();
    let tries = |fuel, budget| {
        let reach = Reach { fuel, budget };
        Tries::new(&job, &code, Base.unlimited(), reach)
    };
    for (fuel, budget, tried) in [(0, 99, 1), (2, 99, 3), (9, 4, 2), (9, 9, 3), (9, 13, 3)] {
        let tries = tries(fuel, budget);
        assert_eq!((tries.tried.len(), tries.found()), (tried, None));
        for cap in 0..5 {
            let report = tries.least(cap).map(|least| least.report);
            let told = (cap < tried as u32).then_some(Report::CapSpent(61));
            assert_eq!(report, told);
        }
    }
    for reach in [(3, 99), (9, 14), (u32::MAX, u64::MAX)] {
        let tries = tries(reach.0, reach.1);
        assert_eq!((tries.tried.len(), tries.found()), (4, Some(3)));
        for cap in [3, 4, u32::MAX] {
            assert_eq!(tries.least(cap).unwrap().report, Report::Fuel(3));
        }
        assert_eq!(tries.last().unwrap().outcome.answer, Answer::Done);
    }
}

/// By the step limit a run ends soon, though the source's would go on for long.
#[test]
fn runs_on_no_longer_than_the_budget() {
    let own = || Ocmp::unplaced(Relation::Eq, A, A);
    let slow = repeat(own(), ins(Add64(A, number(1))));
    let code = block(vec![ins(Add64(A, number(1))), slow]);
    let job = of_code(code);
    let code = accept(&job).unwrap();
    let reach = Reach { budget: 3, ..ANY };
    let tries = Tries::new(&job, &code, Base.limited(1), reach);
    // With fuel 1 the limit is met at the comparison, the second to be followed; the
    // source would also do the loop's Add64.
    assert_eq!(tries.found(), None);
    let reach = Reach { budget: 4, ..ANY };
    let tries = Tries::new(&job, &code, Base.limited(1), reach);
    let least = tries.least(9).unwrap();
    let stopped = (Report::Fuel(1), Answer::Stopped(37, 22), 1, 1);
    assert_eq!(ended(&least), stopped);
}

#[test]
fn told() {
    let told = |cap, limit| least_fuel(&countdown(2), cap, Base.limited(limit)).told();
    let least = "least fuel 1\nstopped 37 at 5\nsteps 0\nflags 0\nRax 2\n";
    assert!(told(9, 0).starts_with(least));
    let spent = "61, with the cap\nspent at 0\nsteps 2\nflags 0\nRax 1\n";
    assert!(told(1, 9).starts_with(spent));
    let refused = least_fuel(&countdown(2).cell(0, 7, 0), 9, Base.limited(9));
    assert!(refused.told().starts_with("refused 13 at 0\n(0 steps made"));
}
