//! The archive of last year's jobs, and the check of it.

use super::*;
use crate::store::{as_bytes as plain_bytes, check, parse};
use crate::target::{LastYear, Own};

fn archive() -> Vec<u8> {
    as_bytes(&last_years(40, 3).unwrap().archived)
}

#[test]
fn both_texts_are_held_to() {
    let stored = archive();
    let [marked, todays] = [Rule::LastYear, Rule::Today].map(|r| parse(&stored, r).unwrap());
    assert!(marked.len() > 205);
    assert_eq!(check(&marked, &mut LastYear), Ok(()));
    assert_eq!(check(&todays, &mut Own), Ok(()));
    assert!(check(&marked, &mut Own).is_err());
    assert!(check(&todays, &mut LastYear).is_err());
    for (marked, todays) in marked.iter().zip(&todays) {
        assert_eq!(marked.job, todays.job);
        assert!(todays.text.starts_with("refused 7 at "));
        assert!(!marked.text.starts_with("refused 7 at "));
    }
}

/// A plain set is the same by both rules where no scale is refused.
#[test]
fn plain_sets_by_last_years_rule() {
    let LastYears { random, .. } = last_years(40, 3).unwrap();
    let stored = plain_bytes(&random);
    assert!(behind_first_line(&stored).is_none());
    for rule in [Rule::LastYear, Rule::Today] {
        let records = parse(&stored, rule).unwrap();
        assert_eq!(records.len(), random.len());
        assert_eq!(check(&records, &mut LastYear), Ok(()));
        assert_eq!(check(&records, &mut Own), Ok(()));
    }
}

/// None of last year's choice is lost, and none is in both.
#[test]
fn what_stays_and_what_goes() {
    let all = choose(Rule::LastYear, 40, 3).unwrap();
    let (kept, moved) = drawn(40, 3).unwrap();
    assert_eq!((all.len(), kept.len() + moved.len()), (40, 40));
    assert!(!moved.is_empty());
    let in_order = |part: &[Record]| {
        let mut rest = all.iter();
        let found = |r: &Record| rest.any(|a| (&a.job, &a.text) == (&r.job, &r.text));
        part.iter().all(found)
    };
    assert!(in_order(&kept) && in_order(&moved));
    assert!(kept.iter().all(|r| !is_scale_refused(&r.job)));
}

#[test]
fn the_form() {
    let stored = archive();
    let first_line = stored.split_inclusive(|b| *b == b'\n').next().unwrap();
    let first_line = std::str::from_utf8(first_line).unwrap();
    assert_eq!(first_line, FIRST_LINE);
    assert!(first_line.contains("last year's rule") && first_line.contains("any 16-bit number"));
    assert!(parse(&stored[..stored.len() - 1], Rule::Today).is_err());
    let mut other = stored.clone();
    other[0] ^= 1;
    assert!(parse(&other, Rule::LastYear).is_err());
}
