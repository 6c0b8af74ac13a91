//! Checking cells: each rule, and every split of lists made by hand.

use super::*;

type Row = (u64, u8, u64);

const LAST: u64 = u64::MAX;

fn cells(list: &[Row]) -> Vec<Cell> {
    let cell = |&(address, tag, value): &Row| Cell {
        address,
        tag,
        value,
    };
    list.iter().map(cell).collect()
}

fn index_of(list: &[Row]) -> Option<(u8, usize)> {
    let addresses: Vec<u64> = list.iter().map(|c| c.0).collect();
    let tags: Vec<u8> = list.iter().map(|c| c.1).collect();
    let values: Vec<u64> = list.iter().map(|c| c.2).collect();
    let answer = check_lists(&addresses, &tags, &values);
    answer.err().map(|t| (t.number, t.place))
}

#[test]
fn rules_in_their_order() {
    assert_eq!(index_of(&[]), None);
    assert_eq!(index_of(&[(0, 7, 1 << 63)]), Some((13, 0)));
    assert_eq!(index_of(&[(0, 8, 255)]), None);
    assert_eq!(index_of(&[(0, 8, 256)]), Some((14, 0)));
    assert_eq!(index_of(&[(4, 8, 0), (4, 16, 65_536)]), Some((14, 1)));
    assert_eq!(index_of(&[(4, 8, 0), (4, 16, 65_535)]), Some((15, 1)));
    assert_eq!(index_of(&[(4, 8, 0), (5, 16, 65_535)]), None);
    assert_eq!(index_of(&[(u64::MAX, 8, 0)]), None);
    assert_eq!(index_of(&[(u64::MAX, 16, 0)]), Some((15, 0)));
}

#[test]
fn lists_of_different_length_and_too_many() {
    let refused = |n, m, k| check_lists(&vec![0; n], &vec![8; m], &vec![0; k]).unwrap_err();
    assert_eq!(refused(1, 2, 2), refusal(11, 0));
    assert_eq!(refused(2, 2, 1), refusal(11, 0));
    assert_eq!(refused(1_025, 1_025, 1_024), refusal(11, 0));
    assert_eq!(refused(1_025, 1_025, 1_025), refusal(12, 0));
    assert_eq!(refused(1_024, 1_024, 1_024), refusal(15, 1));
}

#[test]
fn the_end_that_is_left() {
    assert_eq!(end_left(&[]), 0);
    assert_eq!(end_left(&cells(&[(0, 8, 0), (4, 16, 0)])), 6);
    assert_eq!(end_left(&cells(&[(0, 8, 0), (LAST - 7, 64, 0)])), 1 << 64);
    assert_eq!(end_left(&cells(&[(LAST - 7, 32, 0)])), (1 << 64) - 4);
}

/// The rest has the indexes that it has among all.
#[test]
fn a_rest_by_itself() {
    let rest = cells(&[(8, 8, 0), (9, 8, 0), (9, 8, 0)]);
    assert_eq!(check_rest(&rest[..2], 5, 8), Ok(()));
    assert_eq!(check_rest(&rest, 5, 8), Err(refusal(15, 7)));
    assert_eq!(check_rest(&rest, 5, 9), Err(refusal(15, 5)));
    assert_eq!(check_rest(&rest[..2], 5, 0), Ok(()));
    assert_eq!(check_rest(&[], 5, 1 << 64), Ok(()));
    let over = cells(&[(LAST - 8, 64, 0), (LAST, 8, 0), (LAST, 16, 0)]);
    assert_eq!(check_rest(&over[..2], 2, u128::from(LAST) - 8), Ok(()));
    assert_eq!(check_rest(&over[1..], 2, 0), Err(refusal(15, 3)));
    assert_eq!(check_rest(&over[1..], 2, 1 << 64), Err(refusal(15, 2)));
}

/// Front and then rest, at every split, answer as all.
fn splits(list: &[Row], expected: Option<(u8, usize)>) {
    assert_eq!(index_of(list), expected);
    let all = cells(list);
    for at in 0..=all.len() {
        let (front, rest) = all.split_at(at);
        let answer = check(front).and_then(|()| check_rest(rest, at, end_left(front)));
        let refused = answer.err().map(|t| (t.number, t.place));
        assert_eq!(refused, expected, "{list:?} split at {at}");
    }
}

#[test]
fn every_split_of_accepted_cells() {
    splits(&[], None);
    splits(&[(0, 8, 255), (1, 16, 5), (8, 32, 7), (12, 64, LAST)], None);
    splits(&[(5, 64, 1), (13, 64, 2), (1 << 40, 8, 3)], None);
    splits(&[(0, 64, 0), (LAST - 8, 8, 9), (LAST - 7, 64, 1)], None);
}

#[test]
fn every_split_of_refused_cells() {
    let (low, high) = ((0, 8, 0), (40, 64, 0));
    splits(&[low, (8, 16, 0), (10, 24, 1 << 40), high], Some((13, 2)));
    splits(&[low, (0, 16, 1 << 16), high, (0, 0, 0)], Some((14, 1)));
    splits(&[low, (8, 16, 0), (9, 32, 0), high], Some((15, 2)));
    splits(&[low, high, high, (0, 7, 0)], Some((15, 2)));
    splits(&[low, high, (LAST - 6, 64, 0), high], Some((15, 2)));
    splits(&[(0, 9, 0), low, high], Some((13, 0)));
    splits(&[low, high, (48, 32, 1 << 32)], Some((14, 2)));
}

/// Nothing can stand behind a cell that ends at 2^64.
#[test]
fn every_split_behind_the_top() {
    let (low, top) = ((0, 8, 0), (LAST, 8, 0));
    splits(&[low, top, low, low], Some((15, 2)));
    splits(&[low, top, top], Some((15, 2)));
    splits(&[low, top, (0, 9, 1 << 50), low], Some((13, 2)));
    splits(&[low, top, (LAST, 16, 1 << 16), low], Some((14, 2)));
    assert_eq!(check_rest(&cells(&[low]), 2, 0), Ok(()));
}
