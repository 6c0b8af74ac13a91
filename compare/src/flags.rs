//! The flags word of a state, and which of its two flags are open: set by the
//! fill word, and by nothing else since. What is open goes where the word goes,
//! so that no instruction has a rule of its own for it.

#[derive(Clone, Copy, Debug, PartialEq, Eq)]
pub struct Flags {
    pub word: u64,
    pub carry_open: bool,
    pub overflow_open: bool,
}

/// A flag as an instruction reads it.
#[derive(Clone, Copy, Debug, PartialEq, Eq)]
pub struct Flag {
    pub set: bool,
    pub open: bool,
}

impl Flags {
    /// The caller's, in which nothing is open.
    pub fn given(word: u64) -> Flags {
        Flags {
            word,
            carry_open: false,
            overflow_open: false,
        }
    }

    /// The source's `havoc`: all of it is the fill word, so both are open.
    pub fn filled(fill: u64) -> Flags {
        Flags {
            word: fill,
            carry_open: true,
            overflow_open: true,
        }
    }
}

pub fn has_carry(word: u64) -> bool {
    word % 2 == 1
}

pub fn has_overflow(word: u64) -> bool {
    (word / 2048) % 2 == 1
}

pub fn cf(flags: Flags) -> Flag {
    Flag {
        set: has_carry(flags.word),
        open: flags.carry_open,
    }
}

pub fn overflow(flags: Flags) -> Flag {
    Flag {
        set: has_overflow(flags.word),
        open: flags.overflow_open,
    }
}

/// Whatever the carry becomes, also where it stays, it is closed.
pub fn update_cf(flags: Flags, new_cf: bool) -> Flags {
    let word = match (new_cf, has_carry(flags.word)) {
        (true, false) => flags.word + 1,
        (false, true) => flags.word - 1,
        _ => flags.word,
    };
    Flags {
        word,
        carry_open: false,
        ..flags
    }
}

/// Closes overflow in the same way.
pub fn update_of(flags: Flags, new_of: bool) -> Flags {
    let word = match (new_of, has_overflow(flags.word)) {
        (true, false) => flags.word + 2048,
        (false, true) => flags.word - 2048,
        _ => flags.word,
    };
    Flags {
        word,
        overflow_open: false,
        ..flags
    }
}
