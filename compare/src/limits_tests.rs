//! The limits that are drawn, and that a program which is wrong under a limit is
//! found out.

use super::*;
use crate::batch::{missing, run};
use crate::other::*;
use crate::run::answer;
use crate::systematic;
use crate::target::Own;
use crate::terms::Evaluation::Base;

fn count_what_fails(outcome: &mut Outcome) {
    if let Answer::Fault(..) = outcome.answer {
        outcome.steps += 1;
    }
}

/// By the base evaluation under another limit; the board is as it should be.
fn under(job: &Job, terms: Terms, limit: u64) -> Option<Result<Outcome, String>> {
    match terms.evaluation {
        Base => Some(Ok(answer(job, Base.limited(limit)))),
        _ => right(job, terms),
    }
}

/// By the base evaluation something else.
fn wrong(job: &Job, terms: Terms, change: fn(&mut Outcome)) -> Option<Result<Outcome, String>> {
    match terms.evaluation {
        Base => changed(job, terms, change),
        _ => right(job, terms),
    }
}

/// The first two are a step late and a step early.
const WRONG: [OnTerms; 7] = [
    |job, terms| under(job, terms, terms.limit.saturating_add(1)),
    |job, terms| under(job, terms, terms.limit.saturating_sub(1)),
    |job, terms| wrong(job, terms, count_what_fails),
    |job, terms| wrong(job, terms, |outcome| outcome.steps += 1),
    |job, terms| wrong(job, terms, flip_flags),
    |job, terms| wrong(job, terms, forget_cells),
    |_, _| Some(Err("no answer".to_string())),
];

#[test]
fn what_is_wrong_under_a_limit_shows() {
    for on_terms in WRONG {
        assert!(run(400, 1, &mut Other(on_terms)).is_err());
    }
}

/// The same in systematic jobs; and it is the difference that is told.
#[test]
fn what_is_wrong_under_a_limit_shows_in_pairs() {
    for on_terms in WRONG {
        let why = systematic::limited(&mut Other(on_terms)).unwrap_err();
        assert!(why.contains("program under test:"), "{why}");
    }
}

#[test]
fn pairs_need_a_program_with_limits() {
    let why = systematic::limited(&mut Other(|_, _| None)).unwrap_err();
    assert!(why.contains("takes neither step limit"), "{why}");
}

#[test]
fn only_a_program_with_limits_has_to_meet_them() {
    let tally = run(400, 1, &mut Other(|_, _| None)).ok().unwrap();
    assert!(tally.limits.missing().is_empty() && tally.board.missing().is_empty());
    let tally = run(4_000, 1, &mut Own).ok().unwrap();
    assert!(missing(&tally).is_empty());
}

fn picked(steps: u64, drawn: u64) -> Vec<Option<u64>> {
    LIMITS.iter().map(|(_, pick)| pick(steps, drawn)).collect()
}

#[test]
fn limits_around_the_steps() {
    let far = [Some(1 << 63), Some(u64::MAX)];
    let near = [Some(0), Some(1), Some(5), Some(6), Some(7), Some(8)];
    assert_eq!(picked(7, 23), [&near[..], &far, &[Some(2)]].concat());
    let near = [Some(0), Some(1), None, None, Some(0), Some(1)];
    assert_eq!(picked(0, 23), [&near[..], &far, &[None]].concat());
}
