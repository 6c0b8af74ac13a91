//! Which caps and limits are drawn, and that a program which is wrong about the least
//! fuel is found out, by chance and by the systematic jobs.

use super::*;
use crate::answer::{Answer, Outcome};
use crate::batch::run;
use crate::build::{number, of_code, plain, reg, repeat};
use crate::least::{least_fuel, Try, CAP_SPENT};
use crate::other::{OnCap, OtherLeast};
use crate::places::{loops_around, records, test_of, Next};
use crate::run::answer;
use crate::systematic;
use crate::target::Own;
use crate::terms::Evaluation::{Base, Board};
use crate::tree::Instruction::{Pxor, Sub64};
use crate::tree::{Ocmp, Relation};

type Told = Option<Result<Least, String>>;

/// As it should be, found by hunting, which takes less time than trying.
fn right(job: &Job, cap: u32, terms: Terms) -> Told {
    Own.least_fuel(job, cap, terms)
}

fn changed(job: &Job, cap: u32, terms: Terms, change: impl Fn(&mut Least)) -> Told {
    let mut least = right(job, cap, terms)?.ok()?;
    change(&mut least);
    Some(Ok(least))
}

/// Another fuel, from the right one and the cap, with the run that it should be.
fn fuel(job: &Job, cap: u32, terms: Terms, other: fn(u32, u32) -> u32) -> Told {
    changed(job, cap, terms, |least| {
        if let Report::Fuel(fuel) = &mut least.report {
            *fuel = other(*fuel, cap);
        }
    })
}

/// The same with the run of that fuel.
fn fuel_and_run(job: &Job, cap: u32, terms: Terms, other: fn(u32, u32) -> u32) -> Told {
    let mut least = fuel(job, cap, terms, other)?.ok()?;
    if let Report::Fuel(fuel) = least.report {
        least.outcome = answer(&job.clone().fuel(fuel), terms);
    }
    Some(Ok(least))
}

/// Where the run with the cap is Spent, something else.
fn spent(job: &Job, cap: u32, terms: Terms, change: impl Fn(&mut Outcome)) -> Told {
    changed(job, cap, terms, |least| {
        if let Report::CapSpent(_) = least.report {
            change(&mut least.outcome);
        }
    })
}

fn faults(answer: Answer) -> bool {
    matches!(answer, Answer::Fault(..))
}

fn is_stopped(answer: Answer) -> bool {
    matches!(answer, Answer::Stopped(..))
}

/// 61 where there is a least fuel of this kind.
fn cap_spent(job: &Job, cap: u32, terms: Terms, when: fn(u32, u32, Answer) -> bool) -> Told {
    changed(job, cap, terms, |least| match least.report {
        Report::Fuel(fuel) if when(fuel, cap, least.outcome.answer) => {
            least.report = Report::CapSpent(CAP_SPENT);
        }
        _ => {}
    })
}

/// A refusal, or 61, or an answer, in the place of another.
fn another(job: &Job, cap: u32, terms: Terms, other: fn(Answer) -> Answer) -> Told {
    changed(job, cap, terms, |least| {
        least.outcome.answer = other(least.outcome.answer);
    })
}

/// On other terms, of which nothing that takes too long is looked at.
fn on(job: &Job, cap: u32, terms: Terms) -> Option<Least> {
    let reach = Reach { fuel: cap, ..REACH };
    let code = accept(job).ok()?;
    Tries::new(job, &code, terms, reach).least(cap)
}

/// The fuel that it takes without the limit, with the run under it.
fn without_limit(job: &Job, cap: u32, terms: Terms) -> Told {
    let unlimited = on(job, cap, terms.evaluation.unlimited());
    changed(job, cap, terms, |least| {
        if let (Report::Fuel(fuel), Some(other)) = (&mut least.report, &unlimited) {
            if let Report::Fuel(larger) = other.report {
                *fuel = larger;
            }
        }
    })
}

/// A test counts only if its comparison was completed, so not one that the run ends
/// right behind, as it does under a limit of one less at the latest.
fn completed_tests(job: &Job, cap: u32, terms: Terms, ends: fn(Answer) -> bool) -> Told {
    let steps = right(job, cap, terms)?.ok()?.outcome.steps;
    let ahead = match steps.checked_sub(1) {
        Some(limit) => on(job, cap, terms.evaluation.limited(limit))?.report,
        None => Report::Fuel(0),
    };
    changed(job, cap, terms, |least| {
        if ends(least.outcome.answer) {
            least.report = ahead;
        }
    })
}

/// Only some loops count. With one fuel less than a loop needs it is the one without.
fn by_some_loops(job: &Job, cap: u32, terms: Terms, counts: fn(&Code, usize) -> bool) -> Told {
    let Ok(code) = accept(job) else {
        return right(job, cap, terms);
    };
    let tries = Tries::new(job, &code, terms, REACH);
    let needs = |(run, need): (&Try, u32)| match run.outcome.answer {
        Answer::Spent(place) if counts(&code, place) => need,
        _ => 0,
    };
    let most = tries.tried.iter().zip(1..).map(needs).max();
    changed(job, cap, terms, |least| {
        if let (Report::Fuel(fuel), Some(most)) = (&mut least.report, most) {
            *fuel = most;
        }
    })
}

/// None stands behind it in the bytes.
fn is_last_loop(code: &Code, place: usize) -> bool {
    let mut tests = records(code).into_iter().filter(|r| r.next == Next::Test);
    tests.all(|test| test.place <= test_of(place))
}

/// Each fuel is tried on what the one before has left.
fn not_from_the_start(job: &Job, cap: u32, terms: Terms) -> Told {
    let mut left = job.clone();
    for fuel in 0..=cap.min(REACH.fuel) {
        let outcome = answer(&left.clone().fuel(fuel), terms);
        let report = match outcome.answer {
            Answer::Refused(..) => Report::Refused,
            Answer::Spent(_) if fuel == cap => Report::CapSpent(CAP_SPENT),
            Answer::Spent(_) => {
                (left.start, left.cells) = outcome.end?;
                continue;
            }
            _ => Report::Fuel(fuel),
        };
        return Some(Ok(Least { report, outcome }));
    }
    right(job, cap, terms)
}

/// The steps of all the tries.
fn all_steps(job: &Job, cap: u32, terms: Terms) -> Told {
    changed(job, cap, terms, |least| {
        if let Report::Fuel(fuel) = least.report {
            let tries = (0..fuel).map(|fuel| answer(&job.clone().fuel(fuel), terms));
            least.outcome.steps += tries.map(|outcome| outcome.steps).sum::<u64>();
        }
    })
}

fn as_lent(job: &Job, outcome: &mut Outcome) {
    outcome.end = Some((job.start.clone(), job.cells.clone()));
}

/// Fuels: one less, with its run and without; the cap; the next power of two; at least
/// 1; that without the limit; by completed tests alone; by outer loops alone, by those
/// inside others, by the last one.
const WRONG_FUELS: [OnCap; 11] = [
    |job, cap, terms| fuel(job, cap, terms, |fuel, _| fuel.saturating_sub(1)),
    |job, cap, terms| fuel_and_run(job, cap, terms, |fuel, _| fuel.saturating_sub(1)),
    |job, cap, terms| fuel(job, cap, terms, |_, cap| cap),
    |job, cap, terms| {
        fuel(job, cap, terms, |fuel, cap| {
            fuel.next_power_of_two().min(cap)
        })
    },
    |job, cap, terms| fuel(job, cap, terms, |fuel, cap| fuel.max(1).min(cap)),
    without_limit,
    |job, cap, terms| completed_tests(job, cap, terms, is_stopped),
    |job, cap, terms| completed_tests(job, cap, terms, faults),
    |job, cap, terms| by_some_loops(job, cap, terms, |c, p| loops_around(c, p) == Some(0)),
    |job, cap, terms| by_some_loops(job, cap, terms, |c, p| loops_around(c, p) > Some(0)),
    |job, cap, terms| by_some_loops(job, cap, terms, is_last_loop),
];

/// 61 where the run with the cap faults or is stopped, at just the cap, with cap 0 and
/// with large caps; with another number, place, state, steps and watch.
const WRONG_61: [OnCap; 11] = [
    |job, cap, terms| cap_spent(job, cap, terms, |_, _, answer| faults(answer)),
    |job, cap, terms| cap_spent(job, cap, terms, |_, _, answer| is_stopped(answer)),
    |job, cap, terms| cap_spent(job, cap, terms, |fuel, cap, _| fuel == cap),
    |job, cap, terms| cap_spent(job, cap, terms, |_, cap, _| cap == 0),
    |job, cap, terms| cap_spent(job, cap, terms, |_, cap, _| cap > i32::MAX as u32),
    |job, cap, terms| {
        changed(job, cap, terms, |least| {
            if let Report::CapSpent(number) = &mut least.report {
                *number = 37;
            }
        })
    },
    |job, cap, terms| {
        another(job, cap, terms, |answer| match answer {
            Answer::Spent(place) => Answer::Spent(test_of(place)),
            answer => answer,
        })
    },
    |job, cap, terms| spent(job, cap, terms, |outcome| as_lent(job, outcome)),
    |job, cap, terms| spent(job, cap, terms, |outcome| outcome.steps = 0),
    |job, cap, terms| spent(job, cap, terms, |o| o.watch = Default::default()),
    |job, cap, terms| {
        let none = answer(&job.clone().fuel(0), terms);
        spent(job, cap, terms, |outcome| *outcome = none.clone())
    },
];

/// Ends: another answer, what was lent, other tries' traces; the other evaluation, no
/// limit; a refusal with steps, none with cap 0; nothing at all.
const WRONG_ENDS: [OnCap; 11] = [
    |job, cap, terms| {
        another(job, cap, terms, |answer| match answer {
            Answer::Stopped(..) => Answer::Done,
            answer => answer,
        })
    },
    |job, cap, terms| {
        another(job, cap, terms, |answer| match answer {
            Answer::Fault(_, place) => Answer::Stopped(37, place),
            answer => answer,
        })
    },
    |job, cap, terms| {
        changed(job, cap, terms, |least| {
            if let Report::Fuel(_) = least.report {
                as_lent(job, &mut least.outcome);
            }
        })
    },
    not_from_the_start,
    all_steps,
    |job, cap, terms| changed(job, cap, terms, |l| l.outcome.watch = Default::default()),
    |job, cap, terms| right(job, cap, Base.limited(terms.limit)),
    |job, cap, terms| {
        let unlimited = on(job, cap, terms.evaluation.unlimited());
        changed(job, cap, terms, |least| {
            *least = unlimited.clone().unwrap_or(least.clone());
        })
    },
    |job, cap, terms| {
        changed(job, cap, terms, |least| {
            least.outcome.steps += u64::from(least.report == Report::Refused);
        })
    },
    |job, cap, terms| {
        changed(job, cap, terms, |least| {
            if least.report == Report::Refused && cap == 0 {
                least.report = Report::CapSpent(CAP_SPENT);
            }
        })
    },
    |_, _, _| Some(Err("no answer".to_string())),
];

fn wrong() -> Vec<OnCap> {
    [&WRONG_FUELS[..], &WRONG_61, &WRONG_ENDS].concat()
}

#[test]
fn what_is_wrong_about_the_least_fuel_shows() {
    for (turn, on_cap) in wrong().into_iter().enumerate() {
        let why = run(800, 1, &mut OtherLeast(on_cap)).err();
        let why = why.unwrap_or_else(|| panic!("{turn}"));
        assert!(why.contains("program under test:"), "{turn}: {why}");
    }
}

/// The same in systematic jobs; and it is the difference that is told.
#[test]
fn what_is_wrong_about_the_least_fuel_shows_in_kernels() {
    for (turn, on_cap) in wrong().into_iter().enumerate() {
        let told = systematic::fuelled(&mut OtherLeast(on_cap));
        let why = told.err().unwrap_or_else(|| panic!("{turn}"));
        assert!(why.contains("program under test:"), "{turn}: {why}");
    }
}

#[test]
fn kernels_need_a_program_that_can_be_asked() {
    let told = systematic::fuelled(&mut OtherLeast(|_, _, _| None));
    let why = told.err().expect("it cannot be asked");
    assert!(why.contains("cannot be asked"), "{why}");
}

#[test]
fn only_a_program_that_can_be_asked_has_to_meet_least_fuels() {
    let tally = run(400, 1, &mut OtherLeast(|_, _, _| None)).ok().unwrap();
    assert!(tally.least.missing().is_empty());
    assert_eq!(tally.least.compared()[0], 0);
    let tally = run(400, 1, &mut Own).ok().unwrap();
    assert!(tally.least.compared()[0] > 1_000);
}

/// What is right passes, however it was found.
#[test]
fn what_is_right_passes() {
    let tried: OnCap = |job, cap, terms| Some(Ok(least_fuel(job, cap, terms)));
    assert!(run(200, 1, &mut OtherLeast(tried)).is_ok());
    let mut tally = LeastTally::default();
    let (job, terms) = (plain(Pxor(0, 1)), Board.unlimited());
    let own = least_fuel(&job, 3, terms);
    let asked = ask(&job, 3, terms, &own, &mut OtherLeast(right), &mut tally);
    assert_eq!((asked, tally.compared()), (Ok(true), [1, 0]));
    let mut none = OtherLeast(|_, _, _| None);
    let asked = ask(&job, 3, terms, &own, &mut none, &mut tally);
    assert_eq!((asked, tally.not_taken), (Ok(false), 1));
}

fn picked(least: Option<u32>, tried: u32, own: u32, drawn: u32) -> Vec<Option<u32>> {
    let known = Known {
        least,
        tried,
        own,
        drawn,
    };
    CAPS.iter().map(|(_, pick)| pick(&known)).collect()
}

#[test]
fn caps_around_the_least_fuel() {
    let near = [Some(0), Some(1), Some(2), Some(3), Some(5), Some(6)];
    let more = [Some(7), Some(6 + 2 + 15), Some(90)];
    let far = [Some(1 << 31), Some(u32::MAX)];
    assert_eq!(
        picked(Some(6), 7, 90, 45),
        [&near[..], &more, &far].concat()
    );
    let near = [Some(0), Some(1), Some(2), Some(0), None, Some(0)];
    let more = [Some(1), Some(2 + 15), Some(90)];
    assert_eq!(
        picked(Some(0), 1, 90, 45),
        [&near[..], &more, &far].concat()
    );
    // Where none was found, none is too large but maybe the job's own.
    let near = [Some(0), Some(1), Some(2), Some(3), None, None];
    let far = [None, None, Some(90), None, None];
    assert_eq!(picked(None, 7, 90, 45), [&near[..], &far].concat());
    assert_eq!(picked(None, 0, 90, 45)[3], None);
}

/// Rax from 2: with one fuel less than the least, four steps are made, then there is
/// the test; five with the least.
#[test]
fn limits_around_the_test() {
    let differs = Ocmp::unplaced(Relation::Ne, reg(0), number(0));
    let less = crate::build::ins(Sub64(reg(0), number(1)));
    let job = of_code(repeat(differs, less)).reg(0, 2);
    let code = accept(&job).unwrap();
    let tries = Tries::new(&job, &code, Base.unlimited(), REACH);
    assert_eq!(tries.found(), Some(3));
    let mut rng = Rng::new(5);
    let mut drawn: Vec<(&str, u64)> = Vec::new();
    for _ in 0..2_000 {
        drawn.extend(limits_of(&tries, &mut rng));
    }
    for expected in [("test-1", 3), ("test", 4), ("test+1", 5), ("steps", 5)] {
        assert!(drawn.contains(&expected));
    }
    let names = limit_names();
    assert!(names
        .iter()
        .all(|name| drawn.iter().any(|(drawn, _)| drawn == name)));
    assert!(drawn.iter().all(|(name, _)| names.contains(name)));
}
