//! What the jobs about scales have to be answered with, worked out by hand.

use super::*;
use crate::answer::Answer;
use crate::reader::SCALES;
use crate::run::answer_bytes;
use crate::writer::write;

/// Number and place of a refusal, None for all else.
fn refused(job: &Job) -> Option<(u8, usize)> {
    match answer_bytes(&job.to_bytes()).answer {
        Answer::Refused(number, place) => Some((number, place)),
        _ => None,
    }
}

fn numbers(jobs: &[Job]) -> Vec<u8> {
    let number = |job| refused(job).map_or(0, |(number, _)| number);
    jobs.iter().map(number).collect()
}

/// Where a byte row begins in a code.
fn find(code: &[u8], row: &[u8]) -> usize {
    let found = code.windows(row.len()).position(|w| w == row);
    found.expect("the row is there")
}

/// 38 roles of instructions and 24 of comparisons, each with 13 scales, and 26 more.
/// The four that there are end with Done, so they found the cell.
#[test]
fn every_scale_in_every_role() {
    let jobs = in_roles();
    assert_eq!(jobs.len(), (38 + 24) * 13 + 26);
    for job in &jobs {
        let at = find(&job.code, &[0x44, BASE]) + 2;
        let scale = i16::from_le_bytes([job.code[at], job.code[at + 1]]);
        let answer = answer_bytes(&job.to_bytes()).answer;
        match SCALES.contains(&scale) {
            true => assert_eq!(answer, Answer::Done),
            false => assert_eq!(answer, Answer::Refused(7, at)),
        }
    }
}

/// Last year all of them ran.
#[test]
fn every_scale_ran_last_year() {
    use crate::reader::Rule;
    use crate::run::answer_bytes_by;
    for job in in_roles() {
        let last_year = answer_bytes_by(Rule::LastYear, &job.to_bytes());
        assert_eq!(last_year.answer, Answer::Done);
    }
}

#[test]
fn the_first_bad_field_decides() {
    let jobs = in_one_operand();
    let (in_roles, others) = jobs.split_at(2 * 38);
    assert_eq!(numbers(in_roles), [4, 7].repeat(38));
    let (sides, others) = others.split_at(2 * 12);
    assert_eq!(numbers(sides), [[4; 12], [7; 12]].concat());
    assert_eq!(numbers(others), [4; 8]);
    let at = |i: usize| refused(&in_roles[i]).map(|(_, place)| place);
    let base = find(&in_roles[0].code, &[0x44]) + 1;
    assert_eq!((at(0), at(1)), (Some(base), Some(base + 1)));
}

#[test]
fn the_first_operand_decides() {
    let jobs = in_two_operands();
    let (instructions, comparisons) = jobs.split_at(3 * (14 + 2 * 3));
    assert_eq!(numbers(instructions), [4, 7, 7].repeat(20));
    assert_eq!(numbers(comparisons), [4, 7].repeat(6));
    let expected: Vec<u8> = [4, 4, 4, 7, 0].into_iter().flat_map(|n| [n; 3]).collect();
    assert_eq!(numbers(&behind_xmm()), expected);
    let places: Vec<_> = behind_xmm().iter().map(refused).collect();
    assert_eq!(places[0], Some((4, 1)));
    assert_eq!(places[9], Some((7, 5)));
}

/// Every cut is 3 at the kind byte of the operand, or where that should be.
#[test]
fn a_body_cut_short_comes_first() {
    let whole = write(&ins(Mul64(scaled(BAD))));
    for n in 1..14 {
        let trouble = crate::reader::read(&whole[..n]).unwrap_err();
        assert_eq!((trouble.number, trouble.place), (3, 1));
    }
    let trouble = crate::reader::read(&whole).unwrap_err();
    assert_eq!((trouble.number, trouble.place), (7, 3));
}
