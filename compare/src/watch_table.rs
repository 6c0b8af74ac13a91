//! What every instruction and comparison does to the two flags that can be open,
//! typed by hand from how request 2026-07 is to be read. No machine goes by this.

use crate::terms::Evaluation;
use Does::*;
use Reads::*;

#[derive(Clone, Copy, Debug, PartialEq, Eq)]
pub enum Does {
    Opens,
    Closes,
    Keeps,
}

#[derive(Clone, Copy, Debug, PartialEq, Eq)]
pub enum Reads {
    Nothing,
    Carry,
    Overflow,
}

/// The kind byte; the carry; overflow by the base evaluation and on the board;
/// what goes into the word.
type Row = (u8, Does, [Does; 2], Reads);

const ROWS: [Row; 33] = [
    (0x01, Keeps, [Keeps, Keeps], Nothing),
    (0x02, Closes, [Keeps, Closes], Nothing),
    (0x03, Keeps, [Keeps, Keeps], Nothing),
    (0x04, Closes, [Keeps, Closes], Carry),
    (0x05, Closes, [Keeps, Keeps], Carry),
    (0x06, Keeps, [Closes, Closes], Overflow),
    (0x07, Opens, [Opens, Opens], Nothing),
    (0x08, Opens, [Opens, Opens], Nothing),
    (0x09, Keeps, [Keeps, Keeps], Nothing),
    (0x0a, Opens, [Opens, Opens], Nothing),
    (0x0b, Closes, [Closes, Closes], Nothing),
    (0x0c, Opens, [Opens, Opens], Nothing),
    (0x0d, Opens, [Opens, Opens], Nothing),
    (0x0e, Opens, [Opens, Opens], Nothing),
    (0x0f, Opens, [Opens, Opens], Nothing),
    (0x10, Keeps, [Keeps, Keeps], Nothing),
    (0x11, Keeps, [Keeps, Keeps], Nothing),
    (0x12, Keeps, [Keeps, Keeps], Nothing),
    (0x13, Keeps, [Keeps, Keeps], Nothing),
    (0x14, Keeps, [Keeps, Keeps], Nothing),
    (0x15, Keeps, [Keeps, Keeps], Nothing),
    (0x16, Keeps, [Keeps, Keeps], Nothing),
    (0x17, Keeps, [Keeps, Keeps], Nothing),
    (0x18, Keeps, [Keeps, Keeps], Nothing),
    (0x19, Closes, [Closes, Closes], Nothing),
    (0x1a, Closes, [Opens, Opens], Nothing),
    (0x1b, Closes, [Opens, Opens], Nothing),
    (0x30, Opens, [Opens, Opens], Nothing),
    (0x31, Opens, [Opens, Opens], Nothing),
    (0x32, Opens, [Opens, Opens], Nothing),
    (0x33, Opens, [Opens, Opens], Nothing),
    (0x34, Opens, [Opens, Opens], Nothing),
    (0x35, Opens, [Opens, Opens], Nothing),
];

/// Whether carry and overflow are open.
pub type Open = [bool; 2];

pub const OPENS: [Open; 4] = [[false, false], [false, true], [true, false], [true, true]];

pub struct Expected {
    pub open: Open,
    pub marks: bool,
}

/// What is open behind one that completes, and whether it marks.
pub fn behind(kind: u8, evaluation: Evaluation, open: Open) -> Expected {
    let row = ROWS.iter().find(|row| row.0 == kind);
    let (_, carry, overflow, reads) = row.expect("every kind has a row");
    let overflow = match evaluation {
        Evaluation::Base => overflow[0],
        Evaluation::Board => overflow[1],
    };
    let after = |does, before| match does {
        Opens => true,
        Closes => false,
        Keeps => before,
    };
    Expected {
        open: [after(*carry, open[0]), after(overflow, open[1])],
        marks: match reads {
            Nothing => false,
            Carry => open[0],
            Overflow => open[1],
        },
    }
}
