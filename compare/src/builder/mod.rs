//! A builder of code records of its own (request 2026-01), and the comparison
//! of lists of calls with the library's.
//!
//! `model.rs` judges calls over a tree in the making and writes the whole
//! tree down anew after each; a build that was damaged between calls is
//! followed by the rule of `forged.rs`.

mod calls;
mod damage;
mod drive;
mod forged;
#[cfg(feature = "c_target")]
#[allow(unsafe_code)]
mod linked;
mod lists;
mod maker;
mod model;
mod own;
mod record;
mod stored;
mod systematic;
mod tally;
mod values;

use drive::{Builder, Rule};

pub use drive::compare;
pub use stored::{random, systematic, Stored};

/// `self` is the rule for damaged builds, `c` the port linked in.
pub fn builder_of(name: &str) -> Result<Box<dyn Builder>, String> {
    match name {
        "self" => Ok(Box::new(Rule)),
        #[cfg(feature = "c_target")]
        "c" => Ok(Box::new(linked::Linked)),
        _ => Err(format!(
            "no builder `{name}`: `self`, or `c` when built with the feature c_target"
        )),
    }
}
