//! Lists of cells through the checker under test and this evaluator. Cut at any
//! place, the front, and behind an accepted one the rest from the end that it
//! left, have to be answered as all the cells are (request 2026-05).

use crate::cell_lists::{byte_below, lists, Lists, SHORT};
use crate::cells::{check, check_lists, check_rest, end_left, Cell};
use crate::checkers::{Answer, Checker};
use crate::reader::Trouble;
use crate::rng::Rng;
use crate::split_tally::SplitTally;
use std::collections::BTreeSet;

/// Of a list that is not short, how many splits are taken by chance.
const BY_CHANCE: usize = 8;

/// Takes the lists in turn up to the first difference.
pub fn compare(count: u64, seed: u64, checker: Checker) -> Result<SplitTally, String> {
    let mut tally = SplitTally::default();
    for index in 0..count {
        let made = lists(seed, index);
        // Another row of numbers than the one that the list was made from.
        let mut rng = Rng::of_job(!seed, index);
        let done = compare_lists(&made, checker, &mut rng, &mut tally);
        done.map_err(|what| format!("seed {seed}, list {index}:\n{made}{what}"))?;
    }
    Ok(tally)
}

fn compare_lists(
    lists: &Lists,
    checker: Checker,
    rng: &mut Rng,
    tally: &mut SplitTally,
) -> Result<(), String> {
    let Lists {
        addresses,
        tags,
        values,
    } = lists;
    let own = check_lists(addresses, tags, values).map(drop);
    let all = checker(addresses, tags, values);
    same("all the cells", own, all)?;
    tally.add(all);
    if let Err(Trouble {
        number: 11 | 12, ..
    }) = all
    {
        return Ok(());
    }
    let cells = lists.cells();
    for at in places(rng, cells.len(), all) {
        Split {
            cells: &cells,
            at,
            all,
        }
        .compare(checker, tally)
        .map_err(|what| format!("split at {at}: {what}"))?;
    }
    Ok(())
}

/// Where a list is split: everywhere if it is short, else at both ends, around
/// the refused cell and here and there.
fn places(rng: &mut Rng, count: usize, all: Answer) -> BTreeSet<usize> {
    if count <= SHORT {
        return (0..=count).collect();
    }
    let mut places = BTreeSet::from([0, 1, count - 1, count]);
    if let Err(Trouble { place, .. }) = all {
        places.extend(place.saturating_sub(1)..=place + 1);
    }
    places.extend((0..BY_CHANCE).map(|_| rng.below(count + 1)));
    places
}

/// Cells cut in two, and the checker's answer on all of them.
struct Split<'a> {
    cells: &'a [Cell],
    at: usize,
    all: Answer,
}

impl Split<'_> {
    fn compare(&self, checker: Checker, tally: &mut SplitTally) -> Result<(), String> {
        let (front, rest) = self.cells.split_at(self.at);
        let end = end_left(front);
        let answer = ask(checker, front);
        let joined = answer.and_then(|()| check_rest(rest, self.at, end));
        same("front, then rest", self.all, joined)?;
        same("the front", check(front), answer)?;
        tally.split(self.at, self.all);
        if answer.is_ok() {
            let stood_in = self.stand_in(checker, end);
            same("the rest behind a byte", self.all, stood_in)?;
            tally.joint(end, check_rest(rest, self.at, 0), self.all);
        }
        Ok(())
    }

    /// The checker itself on the rest: of the front it is given no more than a
    /// byte that has the same end.
    fn stand_in(&self, checker: Checker, end: u128) -> Answer {
        let mut cells = Vec::new();
        if self.at > 0 {
            cells.push(byte_below(end));
        }
        let before = cells.len();
        cells.extend(&self.cells[self.at..]);
        ask(checker, &cells).map_err(|trouble| Trouble {
            place: trouble.place.saturating_add(self.at) - before,
            ..trouble
        })
    }
}

fn ask(checker: Checker, cells: &[Cell]) -> Answer {
    let Lists {
        addresses,
        tags,
        values,
    } = Lists::of(cells);
    checker(&addresses, &tags, &values)
}

fn same(what: &str, expected: Answer, met: Answer) -> Result<(), String> {
    match expected == met {
        true => Ok(()),
        false => Err(format!("{what}: {}, not {}", told(met), told(expected))),
    }
}

fn told(answer: Answer) -> String {
    match answer {
        Ok(()) => "accepted".to_string(),
        Err(Trouble { number, place }) => format!("{number} at {place}"),
    }
}

#[cfg(test)]
#[path = "splits_tests.rs"]
mod tests;
