//! Jobs that are refused for a scale today, with the texts that last year's rule
//! printed for them.
//!
//! The first line says so in words. Behind it a record is three parts, each behind
//! its length in four bytes, low first: the job, the marked text, which is last
//! year's, and today's, a refusal.

use crate::answer::render;
use crate::batch::own_answer;
use crate::reader::Rule;
use crate::run::{answer_bytes, is_scale_refused};
use crate::store::{choose, part, push_part, text_part, Record};
use crate::systematic;
use crate::tally::Tally;

/// What makes a file an archive. Any other begins with a length or the word `job`.
const FIRST_LINE: &str = "The first text behind each of these jobs was printed by last year's \
    rule, by which a scale could be any 16-bit number; the second is today's.\n";

/// A job of last year's with the text that it had.
fn marked(job: Vec<u8>) -> Result<Record, String> {
    let own = own_answer(Rule::LastYear, &job, 0, &mut Tally::default())?;
    let text = render(&own);
    Ok(Record { job, text })
}

/// Last year's stored jobs of the seed: those that stay, and those that are
/// refused for a scale today.
fn drawn(count: usize, seed: u64) -> Result<(Vec<Record>, Vec<Record>), String> {
    let all = choose(Rule::LastYear, count, seed)?;
    let (moved, kept) = all.into_iter().partition(|r| is_scale_refused(&r.job));
    Ok((kept, moved))
}

/// Last year's generated jobs that stay, with their texts; and the archive of all
/// that do not, the systematic ones first.
pub struct LastYears {
    pub random: Vec<Record>,
    pub archived: Vec<Record>,
}

pub fn last_years(count: usize, seed: u64) -> Result<LastYears, String> {
    let systematic = systematic::moved().into_iter().map(marked);
    let mut archived = systematic.collect::<Result<Vec<Record>, String>>()?;
    let (random, moved) = drawn(count, seed)?;
    archived.extend(moved);
    Ok(LastYears { random, archived })
}

pub fn as_bytes(records: &[Record]) -> Vec<u8> {
    let mut out = FIRST_LINE.as_bytes().to_vec();
    for Record { job, text } in records {
        push_part(&mut out, job);
        push_part(&mut out, text.as_bytes());
        push_part(&mut out, render(&answer_bytes(job)).as_bytes());
    }
    out
}

/// The records of an archive, None of any other file.
pub fn behind_first_line(stored: &[u8]) -> Option<&[u8]> {
    stored.strip_prefix(FIRST_LINE.as_bytes())
}

/// With the texts that a program by the rule has to give.
pub fn from_bytes(mut rest: &[u8], rule: Rule) -> Result<Vec<Record>, String> {
    let mut records = Vec::new();
    while !rest.is_empty() {
        let job = part(&mut rest)?.to_vec();
        let (marked, todays) = (text_part(&mut rest)?, text_part(&mut rest)?);
        let text = match rule {
            Rule::LastYear => marked,
            Rule::Today => todays,
        };
        records.push(Record { job, text });
    }
    Ok(records)
}

#[cfg(test)]
#[path = "archive_tests.rs"]
mod tests;
