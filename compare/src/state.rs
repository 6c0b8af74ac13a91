//! The source's machine: state, memory as a map over all whole numbers, and
//! the operands' meaning. Addresses are exact in `i128`.

use crate::cells::Cell;
use crate::flags::Flags;
use crate::tree::*;
use std::collections::BTreeMap;
use std::rc::Rc;

pub type Quad = [u32; 4];

#[derive(Clone, Copy, Debug, PartialEq, Eq)]
pub enum Entry {
    Mem8(u8),
    Mem16(u16),
    Mem32(u32),
    Mem64(u64),
}

pub type Memory = BTreeMap<i128, Entry>;

#[derive(Clone, Debug, PartialEq, Eq)]
pub struct State {
    pub ok: bool,
    pub regs: [u64; 16],
    pub xmms: [Quad; 16],
    /// With what is open in them.
    pub flags: Flags,
    /// Shared between the states of a run until one of them is written to.
    pub mem: Rc<Memory>,
}

/// What a run is given beside code, cells, fill and fuel.
#[derive(Clone, Debug, PartialEq, Eq)]
pub struct Start {
    pub flags: u64,
    pub regs: [u64; 16],
    pub xmms: [Quad; 16],
}

impl State {
    pub fn new(start: &Start, cells: &[Cell]) -> State {
        let mem = cells
            .iter()
            .map(|c| (i128::from(c.address), entry_of(c)))
            .collect();
        State {
            ok: true,
            regs: start.regs,
            xmms: start.xmms,
            flags: Flags::given(start.flags),
            mem: Rc::new(mem),
        }
    }

    pub fn visible(&self) -> Start {
        Start {
            flags: self.flags.word,
            regs: self.regs,
            xmms: self.xmms,
        }
    }

    /// The listed cells as this state has them.
    pub fn cells(&self, listed: &[Cell]) -> Vec<Cell> {
        let read = |c: &Cell| {
            let (tag, value) = tag_and_value(select(i128::from(c.address), &self.mem));
            Cell {
                address: c.address,
                tag,
                value,
            }
        };
        listed.iter().map(read).collect()
    }
}

fn entry_of(cell: &Cell) -> Entry {
    match cell.tag {
        8 => Entry::Mem8(cell.value as u8),
        16 => Entry::Mem16(cell.value as u16),
        32 => Entry::Mem32(cell.value as u32),
        _ => Entry::Mem64(cell.value),
    }
}

fn tag_and_value(entry: Entry) -> (u8, u64) {
    match entry {
        Entry::Mem8(v) => (8, u64::from(v)),
        Entry::Mem16(v) => (16, u64::from(v)),
        Entry::Mem32(v) => (32, u64::from(v)),
        Entry::Mem64(v) => (64, v),
    }
}

/// The map's value, Mem8 of 0 where the address is not listed.
pub fn select(address: i128, mem: &Memory) -> Entry {
    mem.get(&address).copied().unwrap_or(Entry::Mem8(0))
}

pub fn valid_mem64(address: i128, mem: &Memory) -> bool {
    matches!(select(address, mem), Entry::Mem64(_))
}

/// `off` is what this evaluator answers where the source promises nothing.
pub fn load_mem64(address: i128, mem: &Memory, off: u64) -> u64 {
    match select(address, mem) {
        Entry::Mem64(v) => v,
        _ => off,
    }
}

pub fn store_mem64(address: i128, value: u64, mem: &mut Rc<Memory>) {
    Rc::make_mut(mem).insert(address, Entry::Mem64(value));
}

fn eval_maddr(m: Maddr, regs: &[u64; 16]) -> i128 {
    let reg = |r: Reg| i128::from(regs[usize::from(r)]);
    match m {
        Maddr::Const(n) => i128::from(n),
        Maddr::Reg(r, offset) => reg(r) + i128::from(offset),
        Maddr::Index(base, scale, index, offset) => {
            reg(base) + i128::from(scale) * reg(index) + i128::from(offset)
        }
    }
}

/// An operand with its address worked out, once for all that check, read or
/// write it.
#[derive(Clone, Copy, Debug, PartialEq, Eq)]
pub enum Located {
    Const(u64),
    Reg(Reg),
    /// Memory at the exact address.
    Mem(i128),
}

pub fn locate(o: Operand, regs: &[u64; 16]) -> Located {
    match o {
        Operand::Const(n) => Located::Const(n),
        Operand::Reg(r) => Located::Reg(r),
        Operand::Mem(m) => Located::Mem(eval_maddr(m, regs)),
    }
}

/// What those who read or write an operand are told of it.
#[derive(Clone, Copy, Debug, PartialEq, Eq)]
pub enum Found {
    /// A constant, a register or a 64-bit cell.
    Word,
    /// The address is one of 64 bits, without a 64-bit cell there.
    NoCell,
    /// The exact address is below 0 or above 2^64-1.
    OutOfRange,
}

/// The map is asked first: where the source runs on after a failed store, an
/// address out of range has the entry that was stored, and counts as valid.
pub fn look(o: Located, s: &State) -> Found {
    match o {
        Located::Mem(address) if !valid_mem64(address, &s.mem) => match u64::try_from(address) {
            Ok(_) => Found::NoCell,
            Err(_) => Found::OutOfRange,
        },
        _ => Found::Word,
    }
}

/// How a check ends; a failed one has the number of its fault.
pub type Judged = Result<(), u8>;

pub fn demand(holds: bool, number: u8) -> Judged {
    if holds {
        Ok(())
    } else {
        Err(number)
    }
}

impl Found {
    /// Where the address is in range, the operand's role has the number.
    fn judged(self, no_cell: u8) -> Judged {
        match self {
            Found::Word => Ok(()),
            Found::NoCell => Err(no_cell),
            Found::OutOfRange => Err(36),
        }
    }
}

pub fn valid_operand(o: Located, s: &State) -> Judged {
    look(o, s).judged(31)
}

fn valid_dst(o: Located) -> Judged {
    demand(!matches!(o, Located::Const(_) | Located::Reg(RSP)), 32)
}

pub fn valid_dst_operand(o: Located, s: &State) -> Judged {
    look(o, s).judged(32).and(valid_dst(o))
}

pub fn eval_operand(o: Located, s: &State, off: u64) -> u64 {
    match o {
        Located::Const(n) => n,
        Located::Reg(r) => s.regs[usize::from(r)],
        Located::Mem(address) => load_mem64(address, &s.mem, off),
    }
}

/// The source's primed update: the flags stay.
pub fn update_operand(o: Located, value: u64, s: &mut State) {
    match o {
        Located::Const(_) => s.ok = false,
        Located::Reg(r) => s.regs[usize::from(r)] = value,
        Located::Mem(address) => store_mem64(address, value, &mut s.mem),
    }
}

#[cfg(test)]
#[path = "state_tests.rs"]
mod tests;
