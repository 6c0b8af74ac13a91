//! The check of cells under test.

use crate::cells::MOST;
use crate::reader::Trouble;

/// Accepted, or the number and the cell's index.
pub type Answer = Result<(), Trouble>;

/// Takes the three lists: addresses, tags, values.
pub type Checker = fn(&[u64], &[u8], &[u64]) -> Answer;

/// `self` looks back at the cell before, `c` is the port linked in.
pub fn checker_of(name: &str) -> Result<Checker, String> {
    match name {
        "self" => Ok(look_back),
        #[cfg(feature = "c_target")]
        "c" => Ok(crate::target_c::check_cells),
        _ => Err(format!(
            "no checker `{name}`: `self`, or `c` when built with the feature c_target"
        )),
    }
}

/// The rules without a running value: each cell is judged beside the one
/// before it. It stands in for the port.
pub fn look_back(addresses: &[u64], tags: &[u8], values: &[u64]) -> Answer {
    let count = tags.len();
    if [addresses.len(), values.len()] != [count; 2] {
        return trouble(11, 0);
    }
    if count > MOST {
        return trouble(12, 0);
    }
    let end = |i: usize| u128::from(addresses[i]) + u128::from(tags[i] >> 3);
    for i in 0..count {
        if !matches!(tags[i], 8 | 16 | 32 | 64) {
            return trouble(13, i);
        }
        if values[i] > u64::MAX >> (64 - tags[i]) {
            return trouble(14, i);
        }
        let overlaps = i > 0 && u128::from(addresses[i]) < end(i - 1);
        if overlaps || end(i) > 1 << 64 {
            return trouble(15, i);
        }
    }
    Ok(())
}

fn trouble(number: u8, place: usize) -> Answer {
    Err(Trouble { number, place })
}
