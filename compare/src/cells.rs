//! Checking cells: accepted, or the first rule broken and the cell's index.

use crate::reader::Trouble;

pub const MOST: usize = 1_024;

/// The first number that is no address. A cell may end here.
pub const TOP: u128 = 1 << 64;

#[derive(Clone, Copy, Debug, PartialEq, Eq)]
pub struct Cell {
    pub address: u64,
    pub tag: u8,
    pub value: u64,
}

impl Cell {
    /// The first address past the cell.
    pub fn end(&self) -> u128 {
        u128::from(self.address) + u128::from(self.tag / 8)
    }
}

/// The cells that three lists of one length tell of.
pub fn cells_of(addresses: &[u64], tags: &[u8], values: &[u64]) -> Vec<Cell> {
    let cell = |i: usize| Cell {
        address: addresses[i],
        tag: tags[i],
        value: values[i],
    };
    (0..tags.len()).map(cell).collect()
}

/// The three lists as they are lent: addresses, tags, values.
pub fn check_lists(addresses: &[u64], tags: &[u8], values: &[u64]) -> Result<Vec<Cell>, Trouble> {
    if addresses.len() != tags.len() || tags.len() != values.len() {
        return Err(refusal(11, 0));
    }
    let cells = cells_of(addresses, tags, values);
    check(&cells)?;
    Ok(cells)
}

pub fn check(cells: &[Cell]) -> Result<(), Trouble> {
    if cells.len() > MOST {
        return Err(refusal(12, 0));
    }
    check_rest(cells, 0, 0)
}

/// Checks the cells behind a front, of which only its count and the end it
/// left are known: the first of the rest has the index `first`.
pub fn check_rest(rest: &[Cell], first: usize, mut end: u128) -> Result<(), Trouble> {
    for (i, cell) in rest.iter().enumerate() {
        if let Some(number) = broken_rule(cell, end) {
            return Err(refusal(number, first + i));
        }
        end = cell.end();
    }
    Ok(())
}

/// The end that accepted cells leave: 0 where there are none, at most 2^64.
pub fn end_left(cells: &[Cell]) -> u128 {
    cells.last().map_or(0, Cell::end)
}

fn refusal(number: u8, index: usize) -> Trouble {
    Trouble {
        number,
        place: index,
    }
}

/// `end` is the end of the cell before, 0 where there is none.
fn broken_rule(cell: &Cell, end: u128) -> Option<u8> {
    if ![8, 16, 32, 64].contains(&cell.tag) {
        return Some(13);
    }
    if u128::from(cell.value) >= 1u128 << cell.tag {
        return Some(14);
    }
    if u128::from(cell.address) < end || cell.end() > TOP {
        return Some(15);
    }
    None
}

#[cfg(test)]
#[path = "cells_tests.rs"]
mod tests;
