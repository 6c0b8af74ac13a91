//! The scene that generated code plays in: start, cells, and who may be
//! written. Registers and cells have roles so that most code runs deep:
//! pointers and amounts keep their value, counters belong to loops, data is
//! free. An address is formed over the registers that keep their value.

use crate::cells::Cell;
use crate::reader::Rule;
use crate::rng::Rng;
use crate::state::Start;
use crate::tree::*;

/// Scales that were drawn often while there could be any.
const LAST_YEARS_SCALES: [i16; 9] = [0, 3, -1, -2, -8, 255, i16::MAX, i16::MIN, -32_767];

pub struct Scene {
    /// Which scales are drawn.
    pub rule: Rule,
    pub rng: Rng,
    pub start: Start,
    pub fill: u64,
    pub cells: Vec<Cell>,
    pub data: Vec<Reg>,
    pub pointers: Vec<Reg>,
    pub amounts: Vec<Reg>,
    pub counters: Vec<Operand>,
    /// Addresses of 64-bit cells that keep a value below 64.
    pub amount_cells: Vec<u64>,
    /// Addresses of 64-bit cells that may be written.
    pub data_cells: Vec<u64>,
    /// How many of a thousand choices go wrong on purpose.
    pub wild: usize,
    /// The instruction numbers that this job prefers, all if empty.
    pub favourites: Vec<usize>,
    /// How many of a hundred operands are memory.
    pub memory: usize,
    /// Whether memory is found through an index where it can be.
    pub indexed: bool,
}

impl Scene {
    pub fn new(rule: Rule, mut rng: Rng, wild: usize) -> Scene {
        let cells = cells(&mut rng);
        let start = start(&mut rng);
        let mut scene = Scene {
            rule,
            fill: rng.flags_word(),
            rng,
            start,
            cells,
            data: Vec::new(),
            pointers: vec![RSP],
            amounts: Vec::new(),
            counters: Vec::new(),
            amount_cells: Vec::new(),
            data_cells: Vec::new(),
            wild,
            favourites: Vec::new(),
            memory: 35,
            indexed: false,
        };
        scene.give_register_roles();
        scene.give_cell_roles();
        scene.choose_favourites();
        scene
    }

    pub fn goes_wild(&mut self) -> bool {
        self.rng.below(1000) < self.wild
    }

    fn give_register_roles(&mut self) {
        let mut free: Vec<Reg> = vec![1, 2, 4, 5, 6, 8, 9, 10, 11, 12, 13, 14, 15];
        let mut draw = |rng: &mut Rng| free.swap_remove(rng.below(free.len()));
        for _ in 0..3 {
            let pointer = draw(&mut self.rng);
            self.pointers.push(pointer);
            let counter = draw(&mut self.rng);
            self.counters.push(Operand::Reg(counter));
        }
        let amount = draw(&mut self.rng);
        self.amounts.push(amount);
        self.start.regs[usize::from(amount)] = amount_value(&mut self.rng);
        self.data = free;
        self.data.extend([RAX, RDX]);
        for pointer in self.pointers.clone() {
            self.start.regs[usize::from(pointer)] = self.pointer_value();
        }
    }

    /// At a cell, beside one, or at an edge.
    fn pointer_value(&mut self) -> u64 {
        if self.cells.is_empty() || self.rng.percent(50) {
            return self.rng.edge_word();
        }
        let at = self.rng.below(self.cells.len());
        let beside = self.rng.pick(&[0, 0, 1, 8, 16, u64::MAX, u64::MAX - 7]);
        self.cells[at].address.wrapping_add(beside)
    }

    fn give_cell_roles(&mut self) {
        for i in 0..self.cells.len() {
            if self.cells[i].tag != 64 {
                continue;
            }
            let address = self.cells[i].address;
            match self.rng.below(12) {
                0 => {
                    self.cells[i].value = amount_value(&mut self.rng);
                    self.amount_cells.push(address);
                }
                1 if self.counters.len() < 5 => {
                    let counter = Operand::Mem(self.address_of(i128::from(address)));
                    self.counters.push(counter);
                }
                _ => self.data_cells.push(address),
            }
        }
    }

    fn choose_favourites(&mut self) {
        if self.rng.percent(30) {
            let count = 1 + self.rng.below(4);
            self.favourites = (0..count)
                .map(|_| 1 + self.rng.below(INSTRUCTION_KINDS))
                .collect();
        }
    }
}

// Addresses.
impl Scene {
    /// An address operand that means `target`, where a form can reach it.
    pub fn address_of(&mut self, target: i128) -> Maddr {
        if let Some(m) = self.reach(target) {
            return m;
        }
        match u64::try_from(target) {
            Ok(n) => Maddr::Const(n),
            Err(_) => Maddr::Reg(self.pointer(), self.rng.edge_word() as i64),
        }
    }

    /// The same, but none where a few tries did not reach it.
    pub fn reach(&mut self, target: i128) -> Option<Maddr> {
        for _ in 0..6 {
            let form = if self.indexed { 2 } else { self.rng.below(3) };
            let found = match form {
                0 => u64::try_from(target).ok().map(Maddr::Const),
                1 => self.register_form(target),
                _ => self.index_form(target),
            };
            if found.is_some() {
                return found;
            }
        }
        None
    }

    pub fn pointer(&mut self) -> Reg {
        let all = self.pointers.len() + self.amounts.len();
        let n = self.rng.below(all);
        if n < self.pointers.len() {
            self.pointers[n]
        } else {
            self.amounts[n - self.pointers.len()]
        }
    }

    fn value(&self, reg: Reg) -> i128 {
        i128::from(self.start.regs[usize::from(reg)])
    }

    fn register_form(&mut self, target: i128) -> Option<Maddr> {
        let reg = self.pointer();
        let offset = i64::try_from(target - self.value(reg)).ok()?;
        Some(Maddr::Reg(reg, offset))
    }

    fn index_form(&mut self, target: i128) -> Option<Maddr> {
        let base = self.pointer();
        let index = self.pointer();
        let scale = self.scale();
        let reached = self.value(base) + i128::from(scale) * self.value(index);
        let offset = i64::try_from(target - reached).ok()?;
        Some(Maddr::Index(base, scale, index, offset))
    }

    fn scale(&mut self) -> i16 {
        match self.rule {
            Rule::Today => self.rng.scale(),
            Rule::LastYear => match self.rng.below(3) {
                0 => self.rng.scale(),
                1 => self.rng.pick(&LAST_YEARS_SCALES),
                _ => self.rng.word() as i16,
            },
        }
    }
}

fn amount_value(rng: &mut Rng) -> u64 {
    rng.pick(&[0, 1, 31, 32, 62, 63, 63, 7])
}

fn start(rng: &mut Rng) -> Start {
    let sparse = rng.percent(50);
    let mut regs = [0; 16];
    for reg in &mut regs {
        if !sparse || rng.percent(30) {
            *reg = rng.edge_word();
        }
    }
    let mut xmms = [[0; 4]; 16];
    for word in xmms.iter_mut().flatten() {
        if !sparse || rng.percent(30) {
            *word = rng.edge_half();
        }
    }
    Start {
        flags: rng.flags_word(),
        regs,
        xmms,
    }
}

/// Accepted cells: up to a dozen, close together or far apart, anywhere.
fn cells(rng: &mut Rng) -> Vec<Cell> {
    let count = rng.pick(&[0, 1, 2, 3, 3, 4, 4, 5, 6, 8, 12]);
    let mut cells = Vec::new();
    let mut at: u128 = 0;
    for _ in 0..count {
        let tag = rng.pick(&[64, 64, 64, 64, 64, 8, 16, 32]);
        let gap: u64 = rng.pick(&[0, 0, 0, 0, 0, 1, 3, 8, 4096, 1 << 32, 1 << 60]);
        at += u128::from(gap);
        cells.push(Cell {
            address: at as u64,
            tag,
            value: rng.edge_word() & (u64::MAX >> (64 - tag)),
        });
        at += u128::from(tag / 8);
    }
    lift(rng, &mut cells, at);
    cells
}

/// Moves the cells up together, often to the very top of the addresses.
fn lift(rng: &mut Rng, cells: &mut [Cell], extent: u128) {
    let room = (1u128 << 64) - extent;
    let lifts = [0, 0, 4096, 4096, 1 << 20, 1 << 32, (1 << 63) - 16, room];
    let wanted = rng.pick(&lifts);
    let by = if rng.percent(15) {
        u128::from(rng.word()) % (room + 1)
    } else {
        wanted.min(room)
    };
    for cell in cells {
        cell.address = (u128::from(cell.address) + by) as u64;
    }
}
