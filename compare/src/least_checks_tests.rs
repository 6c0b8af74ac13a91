//! That the checks hold of what is right, and of nothing else.

use super::*;
use crate::answer::Answer;
use crate::build::*;
use crate::least::least_fuel;
use crate::run::accept;
use crate::terms::EVALUATIONS;
use crate::tree::Instruction::*;
use crate::tree::{Ocmp, Relation};

/// A cell from 3 down to 0, and Rbx added to.
fn countdown() -> Job {
    let differs = Ocmp::unplaced(Relation::Ne, at(8), number(0));
    let codes = [Sub64(at(8), number(1)), Adcx64(reg(1), number(1))];
    of_code(repeat(differs, block(codes.map(ins).into()))).cell(8, 64, 3)
}

fn with(job: &Job, terms: Terms, cap: u32, change: fn(&mut Least)) -> Result<(), String> {
    let code = accept(job).unwrap();
    let fuelled = Fuelled {
        job,
        code: &code,
        terms,
        salt: 5,
    };
    let mut least = least_fuel(job, cap, terms);
    change(&mut least);
    fuelled.check(cap, &least)
}

fn change_fuel(least: &mut Least, by: i64) {
    if let Report::Fuel(fuel) = &mut least.report {
        *fuel = (i64::from(*fuel) + by) as u32;
    }
}

const WRONG: [fn(&mut Least); 11] = [
    |least| change_fuel(least, -1),
    |least| change_fuel(least, -2),
    |least| change_fuel(least, 1),
    |least| least.report = Report::CapSpent(61),
    |least| least.report = Report::CapSpent(37),
    |least| least.report = Report::Refused,
    |least| least.outcome.answer = Answer::Spent(0),
    |least| least.outcome.steps += 1,
    |least| least.outcome.watch.mark = None,
    |least| least.outcome.end.as_mut().unwrap().0.regs[1] += 1,
    |least| least.outcome.end.as_mut().unwrap().1[0].value += 1,
];

/// The limits stop at a comparison, at Sub64 and at Adcx64, and not at all.
#[test]
fn only_the_right_report_holds() {
    for evaluation in EVALUATIONS {
        for limit in [6, 7, 8, 10, u64::MAX] {
            let terms = evaluation.limited(limit);
            for cap in [4, 5, 9, 1 << 31, u32::MAX] {
                assert_eq!(with(&countdown(), terms, cap, |_| {}), Ok(()));
                for change in WRONG {
                    let why = with(&countdown(), terms, cap, change).unwrap_err();
                    assert!(why.starts_with("inner check, "), "{why}");
                }
            }
        }
    }
}

#[test]
fn only_61_holds_where_the_cap_is_spent() {
    let wrong: [fn(&mut Least); 6] = [
        |least| least.report = Report::Fuel(2),
        |least| least.report = Report::Fuel(3),
        |least| least.report = Report::CapSpent(37),
        |least| least.outcome.answer = Answer::Done,
        |least| least.outcome.steps -= 1,
        |least| least.outcome.end.as_mut().unwrap().1[0].value = 3,
    ];
    for evaluation in EVALUATIONS {
        for limit in [9, 10, u64::MAX] {
            let terms = evaluation.limited(limit);
            assert_eq!(with(&countdown(), terms, 2, |_| {}), Ok(()));
            for change in wrong {
                assert!(with(&countdown(), terms, 2, change).is_err());
            }
        }
    }
}

/// Without a loop there is nothing below 0, and with one 0 is not enough.
#[test]
fn a_least_fuel_of_0() {
    let terms = EVALUATIONS[0].unlimited();
    let job = plain(Add64(reg(1), number(1)));
    for cap in [0, 1, u32::MAX] {
        assert_eq!(with(&job, terms, cap, |_| {}), Ok(()));
        let spent: fn(&mut Least) = |least| least.report = Report::CapSpent(61);
        assert!(with(&job, terms, cap, spent).is_err());
    }
    let more: fn(&mut Least) = |least| change_fuel(least, 1);
    assert!(with(&job, terms, 0, more).is_err());
    assert!(with(&job, terms, 7, more).is_err());
    let none: fn(&mut Least) = |least| least.report = Report::Fuel(0);
    assert!(with(&countdown(), terms, 9, none).is_err());
}
