//! The numbers that the groups have to end with, worked out by hand.

use super::*;
use crate::answer::Answer;
use crate::run::{answer_bytes, answer_bytes_by};

const RULES: [Rule; 2] = [Rule::Today, Rule::LastYear];

/// The number of each job's fault, 0 for Done.
fn numbers(jobs: impl IntoIterator<Item = Job>) -> Vec<u8> {
    numbers_by(Rule::Today, jobs)
}

fn numbers_by(rule: Rule, jobs: impl IntoIterator<Item = Job>) -> Vec<u8> {
    let number = |job: Job| match answer_bytes_by(rule, &job.to_bytes()).answer {
        Answer::Done => 0,
        Answer::Fault(number, _) => number,
        other => panic!("{other:?}"),
    };
    jobs.into_iter().map(number).collect()
}

fn of_codes(codes: Vec<Code>) -> Vec<u8> {
    numbers(codes.into_iter().map(at_both_ends))
}

#[test]
fn forms() {
    let read = |form: Form| form.met(ins(Mov64(reg(TARGET), form.operand)));
    let written = |form: Form| form.met(ins(Mov64(form.operand, reg(SMALL))));
    for rule in RULES {
        let all = Forms::by(rule);
        for wild in [all.below, all.above] {
            assert_eq!(numbers_by(rule, wild.map(read)), [36; 11]);
            assert_eq!(numbers_by(rule, wild.map(written)), [36; 11]);
        }
        assert_eq!(numbers_by(rule, all.last.map(read)), [31; 7]);
        assert_eq!(numbers_by(rule, all.last.map(written)), [32; 7]);
        assert_eq!(numbers_by(rule, at_home(&all)), [0; 16]);
    }
}

#[test]
fn roles() {
    let ends = shapes().into_iter().flat_map(|shape| {
        let own = |role: &Role| if *role == Role::Source { 31 } else { 32 };
        shape.roles.iter().map(own).collect::<Vec<u8>>()
    });
    let ends: Vec<u8> = ends.collect();
    let by_turns: Vec<u8> = ends.iter().flat_map(|&own| [36, 36, own]).collect();
    assert_eq!(by_turns.len(), 114);
    let each = ends.iter().flat_map(|&own| [36, 36, 36, 36, own, own]);
    let each: Vec<u8> = each.collect();
    let mut compared = vec![36; 22];
    compared.extend([31, 31]);
    let in_turn = [36, 36, 36, 36, 31, 31, 0, 0, 0, 0].repeat(4);
    for rule in RULES {
        let (all, numbers) = (Forms::by(rule), |jobs| numbers_by(rule, jobs));
        assert_eq!(numbers(in_roles(&all)), by_turns);
        assert_eq!(numbers(ends_in_roles(&all)), each);
        assert_eq!(numbers(in_comparisons(&all)), compared);
        assert_eq!(numbers(ends_in_comparisons(&all)), in_turn);
    }
}

/// The first of two is there, has no cell, is out of the range; and with each
/// of them the second.
#[test]
fn operands_of_comparisons() {
    let expected = [0, 31, 36, 31, 31, 31, 36, 36, 36];
    assert_eq!(of_codes(compared_pairs()), expected.repeat(6));
}

#[test]
fn operands_of_instructions() {
    let mut expected = Vec::new();
    // By destination, Rsp and a constant last; a source in each of three ways.
    for own in [0, 32, 36, 32, 32] {
        expected.extend([own, own, 31, 31, 36, 36]);
    }
    expected.extend([0, 31, 36, 31, 31, 31, 36, 36, 36]);
    // By amount, the last one 64; a destination in each of five ways.
    expected.extend([0, 32, 36, 32, 32]);
    expected.extend([31; 5]);
    expected.extend([36; 5]);
    expected.extend([33; 5]);
    assert_eq!(of_codes(instruction_pairs()), expected);
}

#[test]
fn destinations_of_products() {
    let expected = [0, 32, 36, 32, 32, 32, 36, 36, 36, 32, 36, 32, 36, 31, 36];
    assert_eq!(of_codes(product_pairs()), expected);
    let through_low = [36, 0, 32, 36, 36, 36, 0, 36, 0, 32, 36, 36];
    for rule in RULES {
        assert_eq!(numbers_by(rule, products_through_low(rule)), through_low);
    }
}

#[test]
fn places_and_tests() {
    let mut jobs = elsewhere();
    let spent = jobs.pop().expect("the last one has no fuel");
    assert_eq!(answer_bytes(&spent.to_bytes()).answer, Answer::Spent(0));
    assert_eq!(numbers(jobs), [36, 36, 36, 36, 36, 36, 36, 36, 36, 36, 0]);
}
