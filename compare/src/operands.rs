//! Operands for generated code.

use crate::cells::Cell;
use crate::reader::Rule;
use crate::scene::Scene;
use crate::tree::*;

const TOP: i128 = 1 << 64;

impl Scene {
    /// A cell's address, where there are cells.
    fn anchor(&mut self) -> u64 {
        if self.cells.is_empty() {
            return self.rng.edge_word();
        }
        self.cells[self.rng.below(self.cells.len())].address
    }

    /// Memory at, beside and beyond the cells; seldom a 64-bit cell.
    pub fn wild_memory(&mut self) -> Operand {
        let anchor = i128::from(self.anchor());
        let target = match self.rng.below(8) {
            0 => anchor + TOP,
            1 => anchor - TOP,
            2 => self
                .rng
                .pick(&[-1, -8, 0, 1, TOP - 8, TOP - 1, TOP, TOP + 8]),
            3 => i128::from(self.rng.edge_word()),
            4 => anchor,
            _ => anchor + self.rng.pick(&[1, -1, 4, -4, 7, -7, 8, -8, 16]),
        };
        if self.rng.percent(10) {
            return self.stray_memory();
        }
        Operand::Mem(self.address_of(target))
    }

    /// Any fields at all, over any registers.
    fn stray_memory(&mut self) -> Operand {
        let (a, b) = (self.rng.below(16) as Reg, self.rng.below(16) as Reg);
        let scale = match self.rule {
            Rule::Today => self.rng.scale(),
            Rule::LastYear => self.rng.edge_word() as i16,
        };
        let offset = self.rng.edge_word() as i64;
        Operand::Mem(match self.rng.below(3) {
            0 => Maddr::Const(offset as u64),
            1 => Maddr::Reg(a, offset),
            _ => Maddr::Index(a, scale, b, offset),
        })
    }

    /// Memory out of the 64-bit range, beyond an end of it or a whole 2^64 off
    /// a cell.
    pub fn outside_memory(&mut self) -> Operand {
        for _ in 0..4 {
            let (anchor, by) = (self.anchor(), self.rng.edge_word());
            let (anchor, by) = (i128::from(anchor), i128::from(by));
            let near = [-1, -8, TOP, TOP + 8, anchor + TOP, anchor - TOP];
            let target = match self.rng.below(4) {
                0 => self.rng.pick(&[-1 - by, TOP + by]),
                _ => self.rng.pick(&near),
            };
            if let Some(m) = self.reach(target) {
                return Operand::Mem(m);
            }
        }
        let (r, by) = (self.pointer(), self.rng.below(16) as i64);
        Operand::Mem(self.surely_outside(r, by))
    }

    /// Last year a register less itself was 0, whatever it held. Today the lower
    /// half is left downwards by the offset, the upper one by twice the register.
    fn surely_outside(&self, r: Reg, by: i64) -> Maddr {
        let held = i64::try_from(self.start.regs[usize::from(r)]);
        match (self.rule, held) {
            (Rule::LastYear, _) => Maddr::Index(r, -1, r, -1 - by),
            (Rule::Today, Ok(low)) => Maddr::Reg(r, (-1 - by).saturating_sub(low)),
            (Rule::Today, Err(_)) => Maddr::Index(r, 1, r, by),
        }
    }

    /// Memory in the 64-bit range without a 64-bit cell.
    pub fn absent_memory(&mut self) -> Operand {
        let anchor = self.anchor();
        let beside = [0, 1, 4, 7, u64::MAX].map(|by| anchor.wrapping_add(by));
        let target = match self.rng.below(6) {
            0 => u64::MAX,
            _ => self.rng.pick(&beside),
        };
        // Cells do not overlap, so behind the start of one no other starts.
        let held = |c: &Cell| c.tag == 64 && c.address == target;
        let by = i128::from(self.cells.iter().any(held));
        Operand::Mem(self.address_of(i128::from(target) + by))
    }

    fn cell_operand(&mut self, address: u64) -> Operand {
        Operand::Mem(self.address_of(i128::from(address)))
    }

    pub fn source(&mut self) -> Operand {
        if self.goes_wild() {
            return self.wild_memory();
        }
        let wants_memory = self.rng.below(100) < self.memory;
        if wants_memory && !self.data_cells.is_empty() {
            let address = self.rng.pick(&self.data_cells);
            return self.cell_operand(address);
        }
        if self.rng.percent(60) {
            return Operand::Reg(self.rng.below(16) as Reg);
        }
        Operand::Const(self.rng.edge_word())
    }

    /// What is counted. By chance alone about half of the bits would be ones,
    /// and hardly any zeros at the ends.
    pub fn counted(&mut self) -> Operand {
        if self.rng.percent(30) {
            return Operand::Const(self.rng.run_of_ones());
        }
        self.source()
    }

    pub fn destination(&mut self) -> Operand {
        if self.goes_wild() {
            return match self.rng.below(4) {
                0 => Operand::Const(self.rng.edge_word()),
                1 => Operand::Reg(RSP),
                _ => self.wild_memory(),
            };
        }
        let wants_memory = self.rng.below(100) < self.memory;
        if wants_memory && !self.data_cells.is_empty() {
            let address = self.rng.pick(&self.data_cells);
            return self.cell_operand(address);
        }
        Operand::Reg(self.rng.pick(&self.data))
    }

    pub fn shift_amount(&mut self) -> Operand {
        if self.goes_wild() {
            return match self.rng.below(3) {
                0 => Operand::Const(self.rng.pick(&[64, 65, 127, 128, 1 << 32, u64::MAX])),
                1 => self.source(),
                _ => self.wild_memory(),
            };
        }
        match self.rng.below(4) {
            0 => Operand::Reg(self.rng.pick(&self.amounts)),
            1 if !self.amount_cells.is_empty() => {
                let address = self.rng.pick(&self.amount_cells);
                self.cell_operand(address)
            }
            2 => Operand::Const(self.rng.pick(&[0, 1, 31, 32, 62, 63])),
            _ => Operand::Const(self.rng.below(64) as u64),
        }
    }
}
