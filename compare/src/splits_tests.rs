//! The comparison itself: the rules without a running end agree with it, and a
//! checker with a slip in it does not.

use super::*;
use crate::cells::cells_of;
use crate::checkers::look_back;

const SEED: u64 = 2026;

const OVERLAP: Answer = Err(Trouble {
    number: 15,
    place: 2,
});

const TOO_MANY: Answer = Err(Trouble {
    number: 12,
    place: 0,
});

#[test]
fn looking_back_agrees_with_the_running_end() {
    let tally = compare(4_000, SEED, look_back).expect("no difference");
    assert_eq!(tally.verdict(), Ok(()));
}

fn is_found(slip: Checker) {
    assert!(compare(4_000, SEED, slip).is_err());
}

/// The check with another end behind each cell.
fn ends(addresses: &[u64], tags: &[u8], values: &[u64], end: fn(&Cell) -> u128) -> Answer {
    if let Err(Trouble {
        number: 11 | 12, ..
    }) = look_back(addresses, tags, values)
    {
        return look_back(addresses, tags, values);
    }
    let mut last = 0;
    for (i, cell) in cells_of(addresses, tags, values).iter().enumerate() {
        check_rest(&[*cell], i, last)?;
        last = end(cell);
    }
    Ok(())
}

#[test]
fn slips_in_the_end_are_found() {
    assert!(compare(4_000, SEED, |a, t, v| ends(a, t, v, Cell::end)).is_ok());
    is_found(|a, t, v| ends(a, t, v, |_| 0));
    is_found(|a, t, v| ends(a, t, v, |cell| u128::from(cell.end() as u64)));
    is_found(|a, t, v| ends(a, t, v, |cell| cell.end().min(u128::from(u64::MAX))));
    is_found(|a, t, v| ends(a, t, v, |cell| cell.end() - 1));
    is_found(|a, t, v| ends(a, t, v, |cell| cell.end() + 1));
}

#[test]
fn slips_in_the_answers_are_found() {
    is_found(|a, t, v| look_back(a, t, v).map_err(|t| Trouble { place: 0, ..t }));
    // 1,024 cells are not too many, and 12 does not come ahead of 11.
    is_found(|a, t, v| match a.len() {
        1_024.. => TOO_MANY,
        _ => look_back(a, t, v),
    });
    is_found(|a, t, v| match (a.len(), t.len()) {
        (1_025.., _) | (_, 1_025..) => TOO_MANY,
        _ => look_back(a, t, v),
    });
}

/// Each of a split's three comparisons by itself.
#[test]
fn slips_in_a_split_are_found() {
    let cells = [1, 2, 2, 3].map(byte_below);
    let found = |at, checker| {
        let split = Split {
            cells: &cells,
            at,
            all: OVERLAP,
        };
        split.compare(checker, &mut SplitTally::default())
    };
    for at in 0..=4 {
        assert_eq!(found(at, look_back), Ok(()));
    }
    let begins = |at, checker, what: &str| {
        let difference = found(at, checker).expect_err(what);
        assert!(difference.starts_with(what), "{difference}");
    };
    begins(3, |_, _, _| Ok(()), "front, then rest: accepted");
    begins(2, |_, _, _| OVERLAP, "the front: 15 at 2, not accepted");
    begins(2, |_, _, _| Ok(()), "the rest behind a byte: accepted");
}

#[test]
fn long_lists_are_split_around_the_refused_cell() {
    let mut rng = Rng::new(SEED);
    let all = |count| (0..=count).collect::<BTreeSet<usize>>();
    assert_eq!(places(&mut rng, 0, Ok(())), all(0));
    assert_eq!(places(&mut rng, SHORT, OVERLAP), all(SHORT));
    let trouble = |place| Err(Trouble { number: 13, place });
    for place in [0, 1, 500, 1_023] {
        let chosen = places(&mut rng, 1_024, trouble(place));
        assert!(chosen.is_subset(&all(1_024)));
        let around = [place.saturating_sub(1), place, place + 1];
        assert!(chosen.is_superset(&BTreeSet::from(around)));
        assert!(chosen.is_superset(&BTreeSet::from([0, 1, 1_023, 1_024])));
    }
}
