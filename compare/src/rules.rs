//! How the two rules about scales go together, which is checked of every job.

use crate::answer::{Answer, Outcome};
use crate::job::{parse, Job};
use crate::reader::{Rule, Trouble, SCALES};
use crate::run::{accept_by, answer_bytes_by};

/// A refusal for a scale names a scale that is none, and last year nothing up to it
/// was refused. Every other answer, also a refusal, is last year's.
pub fn agree(bytes: &[u8], today: &Outcome) -> Result<(), String> {
    if let (Answer::Refused(7, place), Ok(job)) = (today.answer, parse(bytes)) {
        return scale_alone(&job, place);
    }
    let last_year = answer_bytes_by(Rule::LastYear, bytes);
    match last_year == *today {
        true => Ok(()),
        false => Err(format!("by last year's rule: {last_year:?}")),
    }
}

/// Such a job is not run: nobody has seen to its fuel.
fn scale_alone(job: &Job, place: usize) -> Result<(), String> {
    let code = &job.code;
    let scale = i16::from_le_bytes([code[place], code[place + 1]]);
    if code[place - 2] != 0x44 || SCALES.contains(&scale) {
        return Err(format!("7 at {place}, where the scale is {scale}"));
    }
    match accept_by(Rule::LastYear, job) {
        Err(trouble) if !comes_behind(code, place, trouble) => {
            Err(format!("7 at {place}, last year {trouble:?}"))
        }
        _ => Ok(()),
    }
}

/// What last year's rule meets behind the scale. It mostly stands behind it too; only
/// the lengths of an IfElse or a While are judged behind its comparison and refused at
/// its own place. Of cells nothing is known: they are checked behind all code.
fn comes_behind(code: &[u8], scale: usize, trouble: Trouble) -> bool {
    let Trouble { number, place } = trouble;
    let comparison = match (number, code.get(place)) {
        (13..=15, _) => return true,
        (6, Some(0x21)) => place + 9,
        (6, Some(0x22)) => place + 5,
        _ => return place > scale,
    };
    place > scale || (comparison..comparison + LONGEST_COMPARISON).contains(&scale)
}

/// The kind and two MIndex operands.
const LONGEST_COMPARISON: usize = 1 + 2 * 13;

#[cfg(test)]
#[path = "rules_tests.rs"]
mod tests;
