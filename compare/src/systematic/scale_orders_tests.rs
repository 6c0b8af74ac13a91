//! Which refusal comes first, worked out by hand.

use super::*;
use crate::answer::Answer;
use crate::run::{answer_bytes, is_scale_refused};

fn number(bytes: &[u8]) -> u8 {
    match answer_bytes(bytes).answer {
        Answer::Refused(number, _) => number,
        _ => 0,
    }
}

fn of_codes(codes: Vec<Vec<u8>>) -> Vec<u8> {
    let bytes = codes.iter().map(|code| of_bytes(code).to_bytes());
    bytes.map(|job| number(&job)).collect()
}

fn of_jobs(jobs: impl IntoIterator<Item = Job>) -> Vec<u8> {
    let bytes = jobs.into_iter().map(|job| job.to_bytes());
    bytes.map(|job| number(&job)).collect()
}

#[test]
fn ahead_of_what_comes_behind() {
    let mut cut = vec![3; 52];
    cut.push(7);
    assert_eq!(of_codes(cut_short()), cut);
    assert_eq!(of_codes(ahead()), [7; 11]);
    assert_eq!(of_codes(ahead_of_parts()), [7; 19]);
}

#[test]
fn behind_what_comes_ahead() {
    let expected = [2, 2, 2, 4, 4, 3, 6, 6, 6, 6, 6, 3, 7, 6, 2];
    assert_eq!(of_codes(behind()), expected);
}

/// A comparison stands no deeper than its structure, so it comes ahead of a part that
/// is too deep.
#[test]
fn at_the_last_depth() {
    let expected = [[7; 6], [5; 6]].concat();
    assert_eq!(of_jobs(depths().into_iter().map(scene)), expected);
}

#[test]
fn wherever_it_stands() {
    let codes = places(bad()).into_iter().chain(not_reached());
    assert!(codes
        .map(scene)
        .all(|job| is_scale_refused(&job.to_bytes())));
}

#[test]
fn beside_all_else_of_a_job() {
    let cells = [7, 13, 7, 14, 7, 15, 7, 15];
    assert_eq!(of_jobs(beside_cells()), cells);
    assert_eq!(of_jobs(beside_ends()), [7, 0, 0, 7, 7]);
    let sizes: Vec<u8> = beside_sizes().iter().map(|job| number(job)).collect();
    assert_eq!(sizes, [12, 41, 2, 41]);
}
