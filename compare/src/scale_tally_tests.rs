//! What is counted of which job.

use super::*;
use crate::reader::read;
use std::collections::BTreeMap;

/// Mul64 of an MIndex with these fields.
fn product(base: u8, scale: u8, index: u8) -> Vec<u8> {
    vec![0x08, 0x44, base, scale, 0, index, 0, 0, 0, 0, 0, 0, 0, 0]
}

/// The same in a comparison with Rax, of an IfElse (21) or a While (22).
fn compared(kind: u8, base: u8, scale: u8, index: u8) -> Vec<u8> {
    let lengths = if kind == 0x21 { 8 } else { 4 };
    let mut code = vec![kind];
    code.extend(vec![0; lengths]);
    code.extend([0x30, 0x41, 0]);
    code.extend(&product(base, scale, index)[1..]);
    code
}

/// The labels that the code adds to, by today's rule.
fn counted(code: &[u8]) -> Vec<String> {
    let mut tally = ScaleTally::default();
    let trouble = read(code).unwrap_err();
    tally.refused(code, &Answer::Refused(trouble.number, trouble.place));
    tally.counts.0.into_keys().collect()
}

#[test]
fn whose_operand_is_refused() {
    let label = |next| vec![refused_label(next)];
    assert_eq!(counted(&product(0, 3, 0)), label(Next::Instruction));
    assert_eq!(counted(&compared(0x21, 0, 3, 0)), label(Next::Choice));
    assert_eq!(counted(&compared(0x22, 0, 3, 0)), label(Next::Test));
}

#[test]
fn which_of_two_fields_decided() {
    assert_eq!(counted(&product(16, 3, 0)), [Both::Base.label()]);
    assert_eq!(counted(&product(16, 3, 16)), [Both::Base.label()]);
    let both = [refused_label(Next::Instruction), Both::Scale.label()];
    let mut expected = both.to_vec();
    expected.sort();
    assert_eq!(counted(&product(0, 3, 16)), expected);
    assert!(counted(&product(16, 8, 16)).is_empty());
    assert!(counted(&product(0, 8, 16)).is_empty());
    assert!(counted(&[0x08, 0x41, 16]).is_empty());
    assert!(counted(&[0x10, 0, 16]).is_empty());
}

/// Only what was completed counts, each operand for itself.
#[test]
fn scales_of_what_was_completed() {
    let row = [
        &[0x20, 28, 0, 0, 0],
        &product(0, 2, 0)[..],
        &product(1, 8, 1),
    ]
    .concat();
    let code = read(&row).unwrap();
    let mut tally = ScaleTally::default();
    tally.ran(&code, &BTreeSet::from([5]));
    assert_eq!(tally.counts.0, BTreeMap::from([(used_label(2), 1)]));
    tally.ran(&code, &BTreeSet::from([5, 19]));
    let both = BTreeMap::from([(used_label(2), 2), (used_label(8), 1)]);
    assert_eq!(tally.counts.0, both);
    assert_eq!(tally.missing().len(), 3 + 2 + 2);
}
