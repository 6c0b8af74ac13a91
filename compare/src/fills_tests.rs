//! Which fill words are drawn, what is said of them, and that a program which is
//! wrong in its watch or under another fill word is found out.

use super::*;
use crate::batch::run;
use crate::build::{block, ins, number, of_code, plain, reg};
use crate::fill_tally::open_reader_at;
use crate::other::*;
use crate::run::answer;
use crate::systematic;
use crate::target::Own;
use crate::terms::Evaluation::{Base, Board};
use crate::tree::Instruction::*;

/// The place of the last read, where it should be that of the first.
fn last_mark(job: &Job, terms: Terms) -> Option<Result<Outcome, String>> {
    let mut outcome = answer(job, terms);
    if let Ok(code) = accept(job) {
        let settings = Settings::new(job.fill, terms);
        let followed = follow(job, &code, u64::from(job.fuel), settings);
        outcome.watch.mark = followed.ok()?.reads.last;
    }
    Some(Ok(outcome))
}

/// Readers mark that did not complete, where the run is answered so.
fn mark_tried(job: &Job, terms: Terms, stopped: bool) -> Option<Result<Outcome, String>> {
    let mut outcome = answer(job, terms);
    let place = match outcome.answer {
        Answer::Fault(_, place) if !stopped => place,
        Answer::Stopped(_, place) if stopped => place,
        _ => return Some(Ok(outcome)),
    };
    let code = accept(job).ok()?;
    if open_reader_at(&code, place, outcome.watch).is_some() {
        outcome.watch.mark.get_or_insert(place);
    }
    Some(Ok(outcome))
}

/// An outcome whose watch is another run's.
fn watch_of(job: &Job, terms: Terms, other: Terms) -> Option<Result<Outcome, String>> {
    let mut outcome = answer(job, terms);
    outcome.watch = answer(job, other).watch;
    Some(Ok(outcome))
}

fn on(
    job: &Job,
    terms: Terms,
    only: Terms,
    change: fn(&mut Outcome),
) -> Option<Result<Outcome, String>> {
    match terms == only {
        true => changed(job, terms, change),
        false => right(job, terms),
    }
}

/// Behind everything but a refusal, as if the start's flags were open.
fn open_from_the_start(outcome: &mut Outcome) {
    if outcome.end.is_some() && outcome.steps == 0 {
        outcome.watch.carry_open = true;
    }
}

const WRONG: [OnTerms; 14] = [
    |job, terms| changed(job, terms, |o| o.watch.mark = None),
    |job, terms| changed(job, terms, |o| o.watch.mark = o.watch.mark.map(|p| p + 1)),
    |job, terms| changed(job, terms, |o| o.watch.mark = o.watch.mark.or(Some(0))),
    |job, terms| changed(job, terms, |o| o.watch.carry_open = false),
    |job, terms| changed(job, terms, |o| o.watch.overflow_open = false),
    |job, terms| changed(job, terms, |o| o.watch.overflow_open = o.watch.carry_open),
    |job, terms| changed(job, terms, open_from_the_start),
    last_mark,
    |job, terms| mark_tried(job, terms, false),
    |job, terms| mark_tried(job, terms, true),
    |job, terms| watch_of(job, terms, Base.limited(terms.limit)),
    |job, terms| watch_of(job, terms, Board.limited(terms.limit)),
    |job, terms| on(job, terms, Base.unlimited(), |o| o.watch.carry_open = false),
    |job, terms| right(&job.clone().fill(0), terms),
];

#[test]
fn what_is_wrong_in_the_watch_shows() {
    for (turn, on_terms) in WRONG.into_iter().enumerate() {
        assert!(run(800, 1, &mut Other(on_terms)).is_err(), "{turn}");
    }
}

/// The same in systematic jobs; and it is the difference that is told.
#[test]
fn what_is_wrong_in_the_watch_shows_in_kernels() {
    for (turn, on_terms) in WRONG.into_iter().enumerate() {
        let told = systematic::watched(&mut Other(on_terms));
        let why = told.err().unwrap_or_else(|| panic!("{turn}"));
        assert!(why.contains("program under test"), "{why}");
    }
}

#[test]
fn kernels_need_a_program_with_terms() {
    let told = systematic::watched(&mut Other(|_, _| None));
    let why = told.err().expect("there are no terms");
    assert!(why.contains("nor evaluation"), "{why}");
}

#[test]
fn only_a_program_with_terms_has_to_meet_fill_words() {
    let tally = run(400, 1, &mut Other(|_, _| None)).ok().unwrap();
    assert!(tally.fills.missing().is_empty());
    assert_eq!(tally.fills.compared(), [0, 0, 0]);
}

/// Sub64 opens both; then Rbx gets the carry of the fill word, or, behind a
/// Xor64, none.
fn carry_to_rbx(quiet: bool) -> Job {
    let (a, b) = (reg(0), reg(1));
    let mut codes = vec![Sub64(a, b), Adcx64(b, number(0)), Paddd(1, 2)];
    if quiet {
        codes.insert(1, Xor64(a, a));
    }
    of_code(block(codes.into_iter().map(ins).collect())).fill(5)
}

fn by_fill(job: &Job, fill: u64) -> Outcome {
    answer(&job.clone().fill(fill), Base.unlimited())
}

#[test]
fn what_is_said_of_another_fill_word() {
    let job = carry_to_rbx(true);
    let own = by_fill(&job, 5);
    for fill in [0, 1, 2048, 2049, 4, !5, u64::MAX] {
        assert!(follows_from(&own, fill, &by_fill(&job, fill)), "{fill}");
        let changes: [fn(&mut Outcome); 9] = [
            |o| o.answer = Answer::Spent(0),
            |o| o.steps += 1,
            |o| o.end.as_mut().unwrap().0.regs[15] += 1,
            |o| o.end.as_mut().unwrap().0.xmms[15][3] += 1,
            |o| o.end.as_mut().unwrap().0.flags ^= 1,
            |o| o.end.as_mut().unwrap().0.flags ^= 2048,
            |o| o.watch.mark = Some(0),
            |o| o.watch.carry_open ^= true,
            |o| o.watch.overflow_open ^= true,
        ];
        for change in changes {
            let mut other = by_fill(&job, fill);
            change(&mut other);
            assert!(!follows_from(&own, fill, &other));
        }
        let mut other = by_fill(&job, fill);
        other.end.as_mut().unwrap().0.flags ^= 4;
        assert!(follows_from(&own, fill, &other), "other bits are left open");
    }
    let job = carry_to_rbx(false);
    assert!(!follows_from(&by_fill(&job, 5), 4, &by_fill(&job, 4)));
}

/// Nothing is open: carry and overflow stay, whatever the fill word has.
#[test]
fn closed_flags_stay() {
    let job = plain(Xor64(reg(0), reg(0)));
    let own = by_fill(&job, 0);
    for fill in [0, 2049, u64::MAX] {
        let mut other = by_fill(&job, fill);
        assert!(follows_from(&own, fill, &other));
        other.end.as_mut().unwrap().0.flags |= 2048;
        assert!(!follows_from(&own, fill, &other));
    }
}

/// Under the job's own fill word all is right. Under others only the first is
/// said otherwise than it follows: the marked run is compared with this
/// evaluator's own.
#[test]
fn what_is_told_of_other_fill_words() {
    for (quiet, expected) in [(true, "unmarked:"), (false, "this evaluator:")] {
        let (job, terms) = (carry_to_rbx(quiet), Base.unlimited());
        let accepted = accept(&job);
        let rerunning = Rerunning {
            job: &job,
            accepted: &accepted,
            terms,
        };
        let mut tally = FillTally::default();
        let own = rerunning.run(&mut Own, &mut tally).unwrap().unwrap();
        let mut wrong = Other(|job, terms| match job.fill {
            5 => right(job, terms),
            _ => changed(job, terms, |o| o.steps += 1),
        });
        assert!(rerunning.run(&mut wrong, &mut tally).is_ok());
        let why = rerunning.with(6, &own, &mut wrong, &mut tally).unwrap_err();
        assert!(why.contains(expected) && why.contains("fill 6"), "{why}");
        assert_eq!(rerunning.with(6, &own, &mut Own, &mut tally), Ok(true));
        assert_eq!(tally.compared(), [2, 1, u64::from(quiet)]);
    }
}

/// Rbx gets the fill word's carry, and a loop goes on as long as it is there.
#[test]
fn a_run_that_another_fill_word_makes_too_long_is_left_out() {
    use crate::build::repeat;
    use crate::tree::{Ocmp, Relation};
    let endless = Ocmp::unplaced(Relation::Eq, reg(1), number(1));
    let codes = vec![
        ins(Paddd(1, 2)),
        ins(Adcx64(reg(1), number(0))),
        repeat(endless, block(Vec::new())),
    ];
    let job = of_code(block(codes)).fuel(u32::MAX);
    let accepted = accept(&job);
    let rerunning = Rerunning {
        job: &job,
        accepted: &accepted,
        terms: Base.unlimited(),
    };
    let mut tally = FillTally::default();
    let own = rerunning.run(&mut Own, &mut tally).unwrap().unwrap();
    assert_eq!(rerunning.with(1, &own, &mut Own, &mut tally), Ok(false));
    assert_eq!((tally.too_long, tally.compared()), (1, [1, 0, 0]));
    // Stopped ahead of the loop it is short, though the source would go on.
    let rerunning = Rerunning {
        terms: Base.limited(1),
        ..rerunning
    };
    let own = rerunning.run(&mut Own, &mut tally).unwrap().unwrap();
    assert_eq!(own.watch.mark, None);
    assert_eq!(rerunning.with(1, &own, &mut Own, &mut tally), Ok(true));
}

#[test]
fn other_fill_words() {
    let picked = |fill, drawn| FILLS.map(|(_, pick)| pick(fill, drawn));
    let (top, all) = (u64::MAX, u64::MAX - 2049);
    assert_eq!(picked(2049, 7), [0, top, all, 2048, 1, 0, 7]);
    let mut rng = Rng::new(3);
    let mut met = Vec::new();
    for _ in 0..200 {
        let three = drawn(0, 3, &mut rng);
        assert!((2..=3).contains(&three.len()));
        assert!(three.iter().all(|(_, fill)| *fill != 0));
        met.extend(three.iter().map(|(name, _)| *name));
    }
    met.sort();
    met.dedup();
    assert_eq!(met.len(), FILLS.len() - 1, "all but the job's own");
}
