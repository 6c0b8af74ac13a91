//! Lists of cells from a seed: accepted ones, and such that were brought to
//! the edge of a rule or over it. A list depends on the seed and its index
//! alone.

use crate::cells::{cells_of, end_left, Cell, MOST, TOP};
use crate::rng::Rng;
use std::fmt::{Display, Formatter};

/// Keeps these lists apart from the jobs of the same seed.
const SALT: u64 = 0x6365_6c6c_7321;

/// Up to here a list is short.
pub const SHORT: usize = 40;

const TAGS: [u8; 4] = [8, 16, 32, 64];

/// What is lent: three lists, maybe of different lengths.
#[derive(Clone, Debug, PartialEq, Eq)]
pub struct Lists {
    pub addresses: Vec<u64>,
    pub tags: Vec<u8>,
    pub values: Vec<u64>,
}

impl Lists {
    pub fn of(cells: &[Cell]) -> Lists {
        Lists {
            addresses: cells.iter().map(|c| c.address).collect(),
            tags: cells.iter().map(|c| c.tag).collect(),
            values: cells.iter().map(|c| c.value).collect(),
        }
    }

    /// The lists have to be of one length.
    pub fn cells(&self) -> Vec<Cell> {
        cells_of(&self.addresses, &self.tags, &self.values)
    }
}

impl Display for Lists {
    fn fmt(&self, f: &mut Formatter<'_>) -> std::fmt::Result {
        writeln!(f, "addresses {:?}", self.addresses)?;
        writeln!(f, "tags {:?}", self.tags)?;
        writeln!(f, "values {:?}", self.values)
    }
}

pub fn lists(seed: u64, index: u64) -> Lists {
    let mut rng = Rng::of_job(seed ^ SALT, index);
    let count = count(&mut rng);
    let mut cells = accepted(&mut rng, count);
    for _ in 0..rng.pick(&[0, 0, 1, 1, 1, 1, 2, 3, 6]) {
        spoil(&mut rng, &mut cells);
    }
    let mut lists = Lists::of(&cells);
    // Long ones more often, as 11 comes ahead of 12.
    if rng.percent(if count > SHORT { 20 } else { 4 }) {
        uneven(&mut rng, &mut lists);
    }
    lists
}

fn count(rng: &mut Rng) -> usize {
    match rng.below(100) {
        0 => rng.pick(&[MOST - 1, MOST, MOST]),
        1 => rng.pick(&[MOST + 1, MOST + 1, 2 * MOST]),
        2 | 3 => 13 + rng.below(60),
        _ => rng.below(13),
    }
}

/// Cells that break no rule: touching, near or far from each other, of all
/// tags or of one.
fn accepted(rng: &mut Rng, count: usize) -> Vec<Cell> {
    let tag_rows: [&[u8]; 6] = [&TAGS, &TAGS, &TAGS, &[8], &[64], &[8, 64]];
    let gap_rows: [&[u64]; 4] = [
        &[0],
        &[0, 0, 1],
        &[1, 7, 8, 4096],
        &[0, 3, 1 << 32, 1 << 60],
    ];
    let (tags, gaps) = (rng.pick(&tag_rows), rng.pick(&gap_rows));
    let widest = (1 << 63) / count.max(1) as u64;
    let mut cells = Vec::new();
    let mut end = 0;
    for _ in 0..count {
        let (tag, address) = (rng.pick(tags), end + rng.pick(gaps).min(widest));
        let largest = u64::MAX >> (64 - tag);
        let value = rng.edge_word() & largest;
        cells.push(Cell {
            address,
            tag,
            value,
        });
        end = address + u64::from(tag / 8);
    }
    lift(rng, &mut cells);
    cells
}

/// Moves all the cells up together, often as far as they can go.
fn lift(rng: &mut Rng, cells: &mut [Cell]) {
    let room = TOP - end_left(cells);
    let by = match rng.below(6) {
        0 => 0,
        1 => room.min(4096),
        2 | 3 => room,
        4 => room - 1,
        _ => u128::from(rng.word()) % (room + 1),
    };
    move_all(cells, by as u64);
}

/// Beyond the top the addresses begin anew.
fn move_all(cells: &mut [Cell], by: u64) {
    for cell in cells {
        cell.address = cell.address.wrapping_add(by);
    }
}

/// Brings a cell to the edge of a rule or over it. Some of it is harmless.
fn spoil(rng: &mut Rng, cells: &mut Vec<Cell>) {
    if cells.is_empty() {
        return;
    }
    let at = rng.below(cells.len());
    match rng.below(12) {
        0 => cells[at].tag = bad_tag(rng),
        1 => cells[at].tag = rng.pick(&TAGS),
        2 | 3 => fill(rng, &mut cells[at]),
        4 | 5 => crowd(rng, cells, at),
        6 => to_the_top(rng, &mut cells[at]),
        7 | 8 => around_the_top(rng, cells, at),
        9 => {
            let other = rng.below(cells.len());
            cells.swap(at, other);
        }
        10 => cells.insert(at, cells[at]),
        _ => {
            let bad = bad_tag(rng);
            cells[at].tag = rng.pick(&[8, 7, bad]);
            cells[at].value = rng.pick(&[255, 256, u64::MAX]);
            crowd(rng, cells, at);
        }
    }
}

/// Often beside one that is allowed; by chance it may be one.
fn bad_tag(rng: &mut Rng) -> u8 {
    let edges = [0, 1, 7, 9, 15, 17, 24, 31, 33, 63, 65, 128, 255];
    match rng.percent(50) {
        true => rng.word() as u8,
        false => rng.pick(&edges),
    }
}

/// The largest value that fits, or more than that.
fn fill(rng: &mut Rng, cell: &mut Cell) {
    cell.tag = rng.pick(&[8, 16, 32]);
    let past = rng.pick(&[u64::MAX, u64::MAX, 0, 0, 1, 1 << 32, 1 << 63]);
    cell.value = (1u64 << cell.tag).wrapping_add(past);
}

/// Moves a cell to the end of the one before, just into it, or to 0.
fn crowd(rng: &mut Rng, cells: &mut [Cell], at: usize) {
    let end = end_left(&cells[..at]) as u64;
    let address = end.wrapping_sub(rng.pick(&[0, 0, 1, 1, 1, 8, 9]));
    cells[at].address = rng.pick(&[address, address, address, 0]);
}

/// A cell's end at 2^64, or as far above as can be.
fn to_the_top(rng: &mut Rng, cell: &mut Cell) {
    let size = u64::from(cell.tag / 8).max(1);
    let past = rng.pick(&[0, 0, 1, size - 1]);
    cell.address = 0u64.wrapping_sub(size).wrapping_add(past);
}

/// All moved so that the end of one is near 2^64: those behind it stand at the
/// low addresses again. The next of them may have more wrong with it, or be the
/// byte at the last address, just below that end.
fn around_the_top(rng: &mut Rng, cells: &mut [Cell], at: usize) {
    let end = cells[at].end() as u64;
    let past = rng.pick(&[0, 0, 0, 1, u64::MAX]);
    move_all(cells, past.wrapping_sub(end));
    if let Some(next) = cells.get_mut(at + 1) {
        match rng.below(5) {
            0 => next.tag = bad_tag(rng),
            1 => fill(rng, next),
            2 => *next = byte_below(TOP),
            _ => {}
        }
    }
}

/// A cell of one byte with this end, which is above 0.
pub fn byte_below(end: u128) -> Cell {
    Cell {
        address: (end - 1) as u64,
        tag: 8,
        value: 0,
    }
}

/// One of the lists, two or all made longer or shorter.
fn uneven(rng: &mut Rng, lists: &mut Lists) {
    let count = lists.tags.len();
    let lengths = [count + 1, count.saturating_sub(1), 0, 2 * count, MOST];
    let which = 1 + rng.below(7);
    if which & 1 != 0 {
        lists.addresses.resize(rng.pick(&lengths), 0);
    }
    if which & 2 != 0 {
        lists.tags.resize(rng.pick(&lengths), 8);
    }
    if which & 4 != 0 {
        lists.values.resize(rng.pick(&lengths), 0);
    }
}

#[cfg(test)]
mod tests {
    use super::*;
    use crate::cells::check;

    #[test]
    fn before_they_are_spoiled_all_are_accepted() {
        for index in 0..3_000 {
            let mut rng = Rng::of_job(2026, index);
            let count = count(&mut rng).min(MOST);
            let cells = accepted(&mut rng, count);
            assert_eq!((check(&cells), cells.len()), (Ok(()), count));
        }
    }

    #[test]
    fn a_seed_gives_the_same_lists_again() {
        let made = |seed| (0..200).map(|i| lists(seed, i)).collect::<Vec<Lists>>();
        assert_eq!(made(7), made(7));
        assert_ne!(made(7), made(8));
    }
}
