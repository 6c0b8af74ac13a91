//! The evaluator as the source has it. It runs on after a failed check, and
//! past the step limit, which the source does not know, and keeps a log
//! (`follow.rs`). Done, Fault, Stopped and Spent are read off the log: the first
//! bad event decides, and it carries the state from just before.

use crate::flags::Flags;
use crate::follow::{Event, Follow, Stop};
use crate::instructions::eval_ins;
use crate::state::*;
use crate::tree::*;

type Evaluated = Result<State, Stop>;

pub fn eval_code(c: &Code, fuel: u64, s: State, f: &mut Follow) -> Evaluated {
    match &c.node {
        Node::Ins(ins) => {
            f.comes_next(c.place, &s)?;
            let s = eval_ins(ins, c.place, s, f);
            f.is_checked()?;
            Ok(s)
        }
        Node::Block(codes) => eval_codes(codes, fuel, s, f),
        Node::IfElse(condition, if_true, if_false) => {
            let (s, b) = run_ocmp(s, condition, f)?;
            eval_code(if b { if_true } else { if_false }, fuel, s, f)
        }
        Node::While(condition, body) => eval_while(c.place, condition, body, fuel, s, f),
    }
}

fn eval_codes(codes: &[Code], fuel: u64, mut s: State, f: &mut Follow) -> Evaluated {
    for code in codes {
        s = eval_code(code, fuel, s, f)?;
    }
    Ok(s)
}

/// The next round is the source's call of itself with one less fuel.
fn eval_while(
    place: usize,
    condition: &Ocmp,
    body: &Code,
    mut fuel: u64,
    mut s0: State,
    f: &mut Follow,
) -> Evaluated {
    loop {
        f.least_fuel = f.least_fuel.min(fuel);
        if fuel == 0 {
            f.log.note(Event::Starved(place), &s0);
            return Err(Stop::NoFuel);
        }
        let (tested, b) = run_ocmp(s0, condition, f)?;
        if !b {
            return Ok(tested);
        }
        let s1 = eval_code(body, fuel - 1, tested, f)?;
        if !s1.ok {
            return Ok(s1);
        }
        fuel -= 1;
        s0 = s1;
    }
}

fn run_ocmp(mut s: State, c: &Ocmp, f: &mut Follow) -> Result<(State, bool), Stop> {
    f.comes_next(c.place, &s)?;
    let [left, right] = [c.left, c.right].map(|o| locate(o, &s.regs));
    // One check in the source; its number is that of the operand which fails first.
    let judged = valid_operand(left, &s).and_then(|()| valid_operand(right, &s));
    s.ok &= f.log.check(judged, c.place, &s);
    f.is_checked()?;
    let b = holds(c.relation, f.operand(left, &s), f.operand(right, &s));
    s.flags = Flags::filled(f.settings.fill);
    Ok((s, b))
}

fn holds(relation: Relation, left: u64, right: u64) -> bool {
    match relation {
        Relation::Eq => left == right,
        Relation::Ne => left != right,
        Relation::Le => left <= right,
        Relation::Ge => left >= right,
        Relation::Lt => left < right,
        Relation::Gt => left > right,
    }
}

#[cfg(test)]
#[path = "source_tests.rs"]
mod tests;
