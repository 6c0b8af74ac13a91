//! That a program which is wrong on the board is found out, by chance and by the
//! systematic jobs, and what is asked of one that has no board.

use super::*;
use crate::batch::run;
use crate::other::*;
use crate::systematic;
use crate::terms::Evaluation::Base;
use crate::terms::Terms;

/// Something else on the board; by the base evaluation all is as it should be.
fn wrong(job: &Job, terms: Terms, change: fn(&mut Outcome)) -> Option<Result<Outcome, String>> {
    match terms.evaluation {
        Board => changed(job, terms, change),
        _ => right(job, terms),
    }
}

fn flip_overflow(outcome: &mut Outcome) {
    if let Some((end, _)) = &mut outcome.end {
        end.flags ^= 2048;
    }
}

/// Both are the base's, both the board's, each is the other; the board's under
/// the largest limit alone, and under the others alone; and other parts of an
/// outcome on the board.
const WRONG: [OnTerms; 10] = [
    |job, terms| right(job, Base.limited(terms.limit)),
    |job, terms| right(job, Board.limited(terms.limit)),
    |job, terms| match terms.evaluation {
        Base => right(job, Board.limited(terms.limit)),
        Board => right(job, Base.limited(terms.limit)),
    },
    |job, terms| match terms == Board.unlimited() {
        true => right(job, Base.unlimited()),
        false => right(job, terms),
    },
    |job, terms| match terms == Board.unlimited() {
        true => right(job, terms),
        false => right(job, Base.limited(terms.limit)),
    },
    |job, terms| wrong(job, terms, flip_flags),
    |job, terms| wrong(job, terms, flip_overflow),
    |job, terms| wrong(job, terms, forget_cells),
    |job, terms| wrong(job, terms, |outcome| outcome.steps += 1),
    |_, _| Some(Err("no answer".to_string())),
];

#[test]
fn what_is_wrong_on_the_board_shows() {
    for on_terms in WRONG {
        assert!(run(400, 1, &mut Other(on_terms)).is_err());
    }
}

/// The same in systematic jobs; and it is the difference that is told.
#[test]
fn what_is_wrong_on_the_board_shows_in_sums() {
    for on_terms in WRONG {
        let told = systematic::sums(&mut Other(on_terms));
        let why = told.err().expect("something is wrong");
        assert!(why.contains("program under test:"), "{why}");
    }
}

#[test]
fn sums_need_a_program_with_evaluations() {
    let told = systematic::sums(&mut Other(|_, _| None));
    let why = told.err().expect("there is no board");
    assert!(why.contains("nor evaluation"), "{why}");
}
