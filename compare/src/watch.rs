//! The watch of a run: whether it went by a flag that the fill word had set,
//! where it first did, and which flags are open at its end.

use std::fmt;

#[derive(Clone, Copy, Debug, Default, PartialEq, Eq)]
pub struct Watch {
    /// The place of the first completed instruction that read an open flag.
    pub mark: Option<usize>,
    pub carry_open: bool,
    pub overflow_open: bool,
}

impl fmt::Display for Watch {
    fn fmt(&self, f: &mut fmt::Formatter) -> fmt::Result {
        match self.mark {
            Some(place) => write!(f, "marked at {place}")?,
            None => write!(f, "unmarked")?,
        }
        let told = |open| if open { "open" } else { "closed" };
        let (carry, overflow) = (told(self.carry_open), told(self.overflow_open));
        write!(f, ", carry {carry}, overflow {overflow}")
    }
}

/// Reads of open flags, as they come in a run.
#[derive(Clone, Copy, Debug, Default, PartialEq, Eq)]
pub struct Reads {
    /// By the instruction under way, of which it is not known yet whether it
    /// completes.
    under_way: Option<usize>,
    /// Places of the first and the last instruction that read one and completed.
    pub first: Option<usize>,
    pub last: Option<usize>,
}

impl Reads {
    /// What came before and did not complete has read nothing.
    pub fn comes_next(&mut self) {
        self.under_way = None;
    }

    pub fn reads_open(&mut self, place: usize) {
        self.under_way = Some(place);
    }

    pub fn completes(&mut self) {
        if let Some(place) = self.under_way.take() {
            self.first.get_or_insert(place);
            self.last = Some(place);
        }
    }
}

#[cfg(test)]
#[path = "watch_tests.rs"]
mod tests;
