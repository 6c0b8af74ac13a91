//! The port linked in: its proved parser, evaluator and renderer, through the
//! C interface and the safe wrapper over it (`../rust`). On terms of the
//! caller's it is the evaluator alone, over state and cells that are lent, and so it
//! is where the least fuel is asked for.

use crate::answer::{Answer, Outcome};
use crate::cells::Cell;
use crate::job::Job;
use crate::least::{Least, Report};
use crate::reader::Trouble;
use crate::state::Start;
use crate::target::Target;
use crate::terms::{Evaluation, Terms};
use crate::watch::Watch;
use pokchrei::{Cells, End, LeastEnd, Setting, State, JOB_ROOM};

pub struct Linked {
    out: Box<[u8; JOB_ROOM]>,
}

impl Linked {
    pub fn new() -> Linked {
        Linked {
            out: Box::new([0; JOB_ROOM]),
        }
    }
}

impl Target for Linked {
    fn answer(&mut self, job: &[u8]) -> Result<Vec<u8>, String> {
        Ok(pokchrei::job(job, &mut self.out).to_vec())
    }

    fn run(&mut self, job: &Job, terms: Terms) -> Option<Result<Outcome, String>> {
        let (end, after) = lent(job, job.fuel, terms, pokchrei::run);
        Some(outcome(job, &end, after))
    }

    fn least_fuel(&mut self, job: &Job, cap: u32, terms: Terms) -> Option<Result<Least, String>> {
        let (end, after) = lent(job, cap, terms, pokchrei::least_fuel);
        Some(least(job, end, after))
    }
}

/// State and cells behind a call.
type After = (Start, Vec<Cell>);

/// Lends a job's state and cells to a call, and hands back what they are then.
fn lent<T>(
    job: &Job,
    fuel: u32,
    terms: Terms,
    call: fn(&[u8], Cells<'_>, &mut State, Setting) -> T,
) -> (T, After) {
    let addresses: Vec<u64> = job.cells.iter().map(|c| c.address).collect();
    let tags: Vec<u8> = job.cells.iter().map(|c| c.tag).collect();
    let mut values: Vec<u64> = job.cells.iter().map(|c| c.value).collect();
    let cells = Cells {
        addresses: &addresses,
        tags: &tags,
        values: &mut values,
    };
    let mut state = state_of(&job.start);
    let setting = Setting {
        fill: job.fill,
        fuel,
        limit: terms.limit,
        evaluation: evaluation_of(terms.evaluation),
    };
    let end = call(&job.code, cells, &mut state, setting);
    let after = (start_of(&state), with_values(&job.cells, &values));
    (end, after)
}

/// Its check of cells alone.
pub fn check_cells(addresses: &[u64], tags: &[u8], values: &[u64]) -> Result<(), Trouble> {
    let answer = pokchrei::check_cells(addresses, tags, values);
    answer.map_err(|refusal| Trouble {
        number: refusal.number,
        place: refusal.place,
    })
}

/// A refusal has no end of its own: what was lent has to be as before.
fn outcome(job: &Job, end: &End, after: After) -> Result<Outcome, String> {
    let answer = answer_of(&end.answer);
    let refused = matches!(answer, Answer::Refused(..));
    if refused && (&after.0, &after.1) != (&job.start, &job.cells) {
        return Err(format!("{answer:?} changed state or cells: {after:?}"));
    }
    Ok(Outcome {
        answer,
        steps: end.steps,
        watch: watch_of(&end.watch),
        end: (!refused).then_some(after),
    })
}

/// With the cap spent, the run that is told of is that with the cap.
fn least(job: &Job, end: LeastEnd, after: After) -> Result<Least, String> {
    let (report, answer) = match end.least {
        pokchrei::Least::Fuel { fuel, answer } => (Report::Fuel(fuel), answer),
        pokchrei::Least::CapSpent { number, place } => {
            (Report::CapSpent(number), pokchrei::Answer::Spent { place })
        }
        pokchrei::Least::Refused(refusal) => (Report::Refused, pokchrei::Answer::Refused(refusal)),
    };
    let LeastEnd { steps, watch, .. } = end;
    let told = End {
        answer,
        steps,
        watch,
    };
    let outcome = outcome(job, &told, after)?;
    Ok(Least { report, outcome })
}

fn evaluation_of(evaluation: Evaluation) -> pokchrei::Evaluation {
    match evaluation {
        Evaluation::Base => pokchrei::Evaluation::Base,
        Evaluation::Board => pokchrei::Evaluation::Board,
    }
}

fn answer_of(answer: &pokchrei::Answer) -> Answer {
    match *answer {
        pokchrei::Answer::Done => Answer::Done,
        pokchrei::Answer::Fault { number, place } => Answer::Fault(number, place),
        pokchrei::Answer::Stopped { number, place } => Answer::Stopped(number, place),
        pokchrei::Answer::Spent { place } => Answer::Spent(place),
        pokchrei::Answer::Refused(ref refusal) => Answer::Refused(refusal.number, refusal.place),
    }
}

fn watch_of(watch: &pokchrei::Watch) -> Watch {
    Watch {
        mark: watch.mark,
        carry_open: watch.carry_open,
        overflow_open: watch.overflow_open,
    }
}

fn state_of(start: &Start) -> State {
    let mut state = State {
        regs: start.regs,
        flags: start.flags,
        ..State::default()
    };
    for (word, value) in state.xmms.iter_mut().zip(start.xmms.iter().flatten()) {
        *word = *value;
    }
    state
}

fn start_of(state: &State) -> Start {
    let mut xmms = [[0; 4]; 16];
    for (value, word) in xmms.iter_mut().flatten().zip(&state.xmms) {
        *value = *word;
    }
    Start {
        flags: state.flags,
        regs: state.regs,
        xmms,
    }
}

fn with_values(cells: &[Cell], values: &[u64]) -> Vec<Cell> {
    let changed = |(cell, value): (&Cell, &u64)| Cell {
        value: *value,
        ..*cell
    };
    cells.iter().zip(values).map(changed).collect()
}
