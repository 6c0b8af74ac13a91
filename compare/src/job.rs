//! A job: its fields, and its bytes on standard input.

use crate::cells::{Cell, MOST};
use crate::reader::Trouble;
use crate::state::Start;

/// Fuel, fill, flags, registers, xmm words and the cell count.
pub const HEAD: usize = 4 + 8 + 8 + 16 * 8 + 16 * 16 + 2;
pub const CELL: usize = 8 + 1 + 8;
pub const LONGEST: usize = 34_198;

#[derive(Clone, Debug, PartialEq, Eq)]
pub struct Job {
    pub fuel: u32,
    pub fill: u64,
    pub start: Start,
    pub cells: Vec<Cell>,
    pub code: Vec<u8>,
}

impl Job {
    pub fn to_bytes(&self) -> Vec<u8> {
        let mut out = Vec::with_capacity(HEAD + CELL * self.cells.len() + self.code.len());
        out.extend(self.fuel.to_le_bytes());
        out.extend(self.fill.to_le_bytes());
        out.extend(self.start.flags.to_le_bytes());
        for reg in self.start.regs {
            out.extend(reg.to_le_bytes());
        }
        for word in self.start.xmms.iter().flatten() {
            out.extend(word.to_le_bytes());
        }
        out.extend((self.cells.len() as u16).to_le_bytes());
        for cell in &self.cells {
            out.extend(cell.address.to_le_bytes());
            out.push(cell.tag);
            out.extend(cell.value.to_le_bytes());
        }
        out.extend(&self.code);
        out
    }
}

/// The refusals that come before running, all at place 0.
pub fn parse(input: &[u8]) -> Result<Job, Trouble> {
    let refusal = |number| Err(Trouble { number, place: 0 });
    if input.len() > LONGEST {
        return refusal(42);
    }
    if input.len() < HEAD {
        return refusal(41);
    }
    let mut fields = Fields(input);
    let fuel = fields.take(4) as u32;
    let fill = fields.take(8);
    let start = fields.start();
    let count = fields.take(2) as usize;
    if count > MOST {
        return refusal(12);
    }
    if fields.0.len() < count * CELL {
        return refusal(41);
    }
    let cells = (0..count).map(|_| fields.cell()).collect();
    Ok(Job {
        fuel,
        fill,
        start,
        cells,
        code: fields.0.to_vec(),
    })
}

/// What is left of the input; enough is known to be there.
struct Fields<'a>(&'a [u8]);

impl Fields<'_> {
    fn take(&mut self, count: usize) -> u64 {
        let (field, rest) = self.0.split_at(count);
        self.0 = rest;
        field
            .iter()
            .rev()
            .fold(0, |value, byte| value * 256 + u64::from(*byte))
    }

    fn start(&mut self) -> Start {
        let flags = self.take(8);
        let mut regs = [0; 16];
        for reg in &mut regs {
            *reg = self.take(8);
        }
        let mut xmms = [[0; 4]; 16];
        for word in xmms.iter_mut().flatten() {
            *word = self.take(4) as u32;
        }
        Start { flags, regs, xmms }
    }

    fn cell(&mut self) -> Cell {
        let address = self.take(8);
        let tag = self.take(1) as u8;
        let value = self.take(8);
        Cell {
            address,
            tag,
            value,
        }
    }
}
