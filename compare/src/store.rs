//! Stored sets of jobs and their texts, as text to read or as bytes.
//!
//! As text a record is a line `job` and the job's bytes, then the text's
//! lines, then an empty line. The bytes are words of hex pairs; a word `hh*n`
//! stands for the byte hh, n (decimal) times.
//!
//! As bytes a record is the job and then its text, each behind its length in
//! four bytes, low first. What was printed by last year's rule has a form of its
//! own (`archive.rs`).

use crate::answer::render;
use crate::archive;
use crate::batch::own_answer;
use crate::generate::job_bytes;
use crate::reader::Rule;
use crate::tally::{class, classes, Tally};
use crate::target::Target;

/// A job's bytes, and this evaluator's text for it.
pub struct Record {
    pub job: Vec<u8>,
    pub text: String,
}

/// Runs shorter than this are spelled out.
const SHORTEST_RUN: usize = 5;
/// Longer jobs are left out of a stored set.
const WIDEST: usize = 2_200;
/// Classes of long jobs, of which one will do.
const LONG: [&str; 2] = ["refused  1", "refused 42"];

pub fn squeeze(bytes: &[u8]) -> String {
    let mut words = Vec::new();
    let mut plain = String::new();
    for run in bytes.chunk_by(|a, b| a == b) {
        let pair = format!("{:02x}", run[0]);
        if run.len() < SHORTEST_RUN {
            plain.push_str(&pair.repeat(run.len()));
            continue;
        }
        if !plain.is_empty() {
            words.push(std::mem::take(&mut plain));
        }
        words.push(format!("{pair}*{}", run.len()));
    }
    if !plain.is_empty() {
        words.push(plain);
    }
    words.join(" ")
}

pub fn expand(line: &str) -> Result<Vec<u8>, String> {
    let mut bytes = Vec::new();
    for word in line.split_ascii_whitespace() {
        let (pairs, times) = match word.split_once('*') {
            Some((pair, count)) => (pair, count.parse().map_err(|_| word.to_string())?),
            None => (word, 1),
        };
        let spelled = unhex(pairs).ok_or_else(|| format!("not hex: {word}"))?;
        bytes.extend(spelled.repeat(times));
    }
    Ok(bytes)
}

fn unhex(pairs: &str) -> Option<Vec<u8>> {
    let digits: Option<Vec<u32>> = pairs.chars().map(|c| c.to_digit(16)).collect();
    let digits = digits.filter(|d| d.len() & 1 == 0)?;
    Some(digits.chunks(2).map(|d| (16 * d[0] + d[1]) as u8).collect())
}

/// Chooses jobs of the seed so that every class of answer is there; about
/// half of them are Done. By last year's rule it is last year's choice.
pub fn choose(rule: Rule, count: usize, seed: u64) -> Result<Vec<Record>, String> {
    let others = classes(rule).len() - 1;
    let share = (count / (2 * others)).max(1);
    let bad = share * (others - LONG.len()) + LONG.len();
    let mut tally = Tally::default();
    let mut stored = Vec::new();
    for index in 0..1000 * count as u64 {
        if tally.jobs as usize >= count {
            return Ok(stored);
        }
        let job = job_bytes(rule, seed, index);
        let own = own_answer(rule, &job, seed, &mut Tally::default())?;
        let name = class(&own.answer);
        let most = match name.as_str() {
            "done" => count.saturating_sub(bad),
            long if LONG.contains(&long) => 1,
            _ => share,
        };
        if squeeze(&job).len() > WIDEST || tally.count(&name) as usize >= most {
            continue;
        }
        tally.add(&own.answer);
        let text = render(&own);
        stored.push(Record { job, text });
    }
    Err(format!("only {} jobs found", tally.jobs))
}

pub fn as_text(records: &[Record]) -> String {
    let spelled = |r: &Record| format!("job {}\n{}\n", squeeze(&r.job), r.text);
    records.iter().map(spelled).collect()
}

pub fn as_bytes(records: &[Record]) -> Vec<u8> {
    let mut out = Vec::new();
    for record in records {
        push_part(&mut out, &record.job);
        push_part(&mut out, record.text.as_bytes());
    }
    out
}

pub fn push_part(out: &mut Vec<u8>, part: &[u8]) {
    out.extend((part.len() as u32).to_le_bytes());
    out.extend(part);
}

/// Reads a stored set of any form, with the texts that a program by this rule has
/// to give. Text begins with the word `job`, the archive with its first line.
pub fn parse(stored: &[u8], rule: Rule) -> Result<Vec<Record>, String> {
    if let Some(rest) = archive::behind_first_line(stored) {
        return archive::from_bytes(rest, rule);
    }
    match std::str::from_utf8(stored) {
        Ok(text) if text.starts_with("job ") => from_text(text),
        _ => from_bytes(stored),
    }
}

fn from_text(stored: &str) -> Result<Vec<Record>, String> {
    let record = |lines: &str| {
        let (line, text) = lines.split_once('\n').ok_or("a record without a text")?;
        let line = line.strip_prefix("job ").ok_or("a record without a job")?;
        Ok(Record {
            job: expand(line)?,
            text: format!("{}\n", text.trim_end_matches('\n')),
        })
    };
    let records = stored.split("\n\n").filter(|r| !r.trim().is_empty());
    records.map(record).collect()
}

fn from_bytes(stored: &[u8]) -> Result<Vec<Record>, String> {
    let (mut rest, mut records) = (stored, Vec::new());
    while !rest.is_empty() {
        let job = part(&mut rest)?.to_vec();
        let text = text_part(&mut rest)?;
        records.push(Record { job, text });
    }
    Ok(records)
}

pub fn text_part(rest: &mut &[u8]) -> Result<String, String> {
    let text = part(rest)?.to_vec();
    String::from_utf8(text).map_err(|e| e.to_string())
}

pub fn part<'a>(rest: &mut &'a [u8]) -> Result<&'a [u8], String> {
    let (length, behind) = rest.split_first_chunk().ok_or("a length is cut short")?;
    let length = u32::from_le_bytes(*length) as usize;
    let (part, behind) = behind
        .split_at_checked(length)
        .ok_or("a part is cut short")?;
    *rest = behind;
    Ok(part)
}

/// Goes through a stored set.
pub fn check(records: &[Record], target: &mut dyn Target) -> Result<(), String> {
    for (index, record) in records.iter().enumerate() {
        let answer = String::from_utf8_lossy(&target.answer(&record.job)?).into_owned();
        if answer != record.text {
            let (line, text) = (squeeze(&record.job), &record.text);
            return Err(format!(
                "job {index}: {line}\nstored:\n{text}answered:\n{answer}"
            ));
        }
    }
    Ok(())
}

#[cfg(test)]
mod tests {
    use super::*;

    #[test]
    fn squeezed_bytes_come_back() {
        for index in 0..400 {
            let bytes = job_bytes(Rule::Today, 11, index);
            assert_eq!(expand(&squeeze(&bytes)), Ok(bytes));
        }
        assert_eq!(squeeze(&[1, 0, 0, 0, 0, 0, 2]), "01 00*5 02");
        assert!(expand("0").is_err());
        assert!(expand("zz").is_err());
    }

    #[test]
    fn records_come_back_in_either_form() {
        let records = choose(Rule::Today, 40, 3).unwrap();
        for stored in [as_bytes(&records), as_text(&records).into_bytes()] {
            let back = parse(&stored, Rule::Today).unwrap();
            assert_eq!(back.len(), 40);
            for (a, b) in records.iter().zip(&back) {
                assert_eq!((&a.job, &a.text), (&b.job, &b.text));
            }
        }
        let bytes = as_bytes(&records);
        assert!(from_bytes(&bytes[..bytes.len() - 1]).is_err());
    }
}
