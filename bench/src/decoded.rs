//! An interpreter that decodes the code once, into an array, and runs from that: operands are values, and the parts of
//! a structure are indexes. It takes accepted code and cells.

use crate::bytes::{length_at, u64_at};
use crate::encode::RSP;
use crate::machine::{holds, indexed, number, Machine, Slot};
use crate::plain::Stop;
use crate::watch::{open_both, see};
use pokchrei::Watch;

#[derive(Clone, Copy)]
enum Operand {
    Const(u64),
    Reg(u8),
    MConst(u64),
    MReg(u8, i64),
    MIndex(u8, i16, u8, i64),
}

/// A kind and two operands.
#[derive(Clone, Copy)]
struct Comparison(u8, Operand, Operand);

/// An element of the array. A Block is none: its codes stand one behind the other. The instructions that take most of
/// a run have an element each, so that one jump tells them apart; the others keep their kind byte.
#[derive(Clone, Copy)]
enum Op {
    Mov64(Operand, Operand),
    Add64(Operand, Operand),
    AddCarry64(Operand, Operand),
    Adcx64(Operand, Operand),
    Adox64(Operand, Operand),
    Sub64(Operand, Operand),
    IMul64(Operand, Operand),
    Xor64(Operand, Operand),
    And64(Operand, Operand),
    Shr64(Operand, Operand),
    Shl64(Operand, Operand),
    Popcnt64(Operand, Operand),
    Lzcnt64(Operand, Operand),
    Tzcnt64(Operand, Operand),
    AddLea64(Operand, Operand, Operand),
    Mul64(Operand),
    Mulx64(Operand, Operand, Operand),
    Lanes(u8, u8, u8),
    Shuffle(u8, u8, u8, u8),
    Extract(u8, u8, Operand),
    Insert(u8, u8, u8, Operand),
    /// An IfElse: on into the true part, or to where the false part begins.
    IfElse(Comparison, u32),
    /// Behind a true part: to the end of the false part.
    Jump(u32),
    /// A While that is met: to its test, which stands behind its body.
    While(u32),
    /// A While's test: back to where its body begins, or on. The last is the While's place in the code.
    Test(Comparison, u32, u32),
}

#[derive(Default)]
pub struct Program {
    ops: Vec<Op>,
    /// Of each element, the place in the code of its instruction or comparison.
    places: Vec<u32>,
}

// Decoding.

fn operand(code: &[u8], at: usize) -> (Operand, usize) {
    match code[at] {
        0x40 => (Operand::Const(u64_at(code, at + 1)), at + 9),
        0x41 => (Operand::Reg(code[at + 1]), at + 2),
        0x42 => (Operand::MConst(u64_at(code, at + 1)), at + 9),
        0x43 => {
            let offset = u64_at(code, at + 2) as i64;
            (Operand::MReg(code[at + 1], offset), at + 10)
        }
        _ => {
            let scale = i16::from_le_bytes([code[at + 2], code[at + 3]]);
            let offset = u64_at(code, at + 5) as i64;
            let index = Operand::MIndex(code[at + 1], scale, code[at + 4], offset);
            (index, at + 13)
        }
    }
}

/// A destination. Rsp becomes a constant, which cannot be written either, so that a run need not look for it.
fn destination(code: &[u8], at: usize) -> (Operand, usize) {
    match operand(code, at) {
        (Operand::Reg(RSP), next) => (Operand::Const(0), next),
        other => other,
    }
}

fn two_words(code: &[u8], at: usize) -> (Op, usize) {
    let (dst, next) = destination(code, at + 1);
    let (src, next) = operand(code, next);
    let op = match code[at] {
        0x01 => Op::Mov64(dst, src),
        0x02 => Op::Add64(dst, src),
        0x04 => Op::AddCarry64(dst, src),
        0x05 => Op::Adcx64(dst, src),
        0x06 => Op::Adox64(dst, src),
        0x07 => Op::Sub64(dst, src),
        0x0a => Op::IMul64(dst, src),
        0x0b => Op::Xor64(dst, src),
        0x0c => Op::And64(dst, src),
        0x0d => Op::Shr64(dst, src),
        0x0e => Op::Shl64(dst, src),
        0x19 => Op::Popcnt64(dst, src),
        0x1a => Op::Lzcnt64(dst, src),
        _ => Op::Tzcnt64(dst, src),
    };
    (op, next)
}

fn add_lea64(code: &[u8], at: usize) -> (Op, usize) {
    let (dst, next) = destination(code, at + 1);
    let (one, next) = operand(code, next);
    let (two, next) = operand(code, next);
    (Op::AddLea64(dst, one, two), next)
}

fn mulx64(code: &[u8], at: usize) -> (Op, usize) {
    let (hi, next) = destination(code, at + 1);
    let (lo, next) = destination(code, next);
    let (src, next) = operand(code, next);
    (Op::Mulx64(hi, lo, src), next)
}

fn instruction(code: &[u8], at: usize) -> (Op, usize) {
    let kind = code[at];
    match kind {
        0x03 => add_lea64(code, at),
        0x09 => mulx64(code, at),
        0x08 => {
            let (src, next) = operand(code, at + 1);
            (Op::Mul64(src), next)
        }
        0x0f..=0x12 | 0x14 => (Op::Lanes(kind, code[at + 1], code[at + 2]), at + 3),
        0x13 | 0x18 => {
            let op = Op::Shuffle(kind, code[at + 1], code[at + 2], code[at + 3]);
            (op, at + 4)
        }
        0x15 => {
            let (dst, next) = destination(code, at + 3);
            (Op::Extract(code[at + 1], code[at + 2], dst), next)
        }
        0x16 | 0x17 => {
            let (src, next) = operand(code, at + 3);
            (Op::Insert(kind, code[at + 1], code[at + 2], src), next)
        }
        _ => two_words(code, at),
    }
}

fn comparison(code: &[u8], at: usize) -> (Comparison, usize) {
    let (one, next) = operand(code, at + 1);
    let (two, next) = operand(code, next);
    (Comparison(code[at], one, two), next)
}

impl Program {
    pub fn decode(code: &[u8]) -> Program {
        let mut program = Program::default();
        program.add_code(code, 0);
        program
    }

    /// The index of the next element.
    fn end(&self) -> u32 {
        self.ops.len() as u32
    }

    /// Answers the index of the new element.
    fn push(&mut self, op: Op, place: usize) -> usize {
        self.ops.push(op);
        self.places.push(place as u32);
        self.ops.len() - 1
    }

    /// Decodes the code at a place, and answers the place behind it.
    fn add_code(&mut self, code: &[u8], at: usize) -> usize {
        match code[at] {
            0x20 => {
                let mut here = at + 5;
                let end = here + length_at(code, at + 1);
                while here < end {
                    here = self.add_code(code, here);
                }
                end
            }
            0x21 => self.add_if_else(code, at),
            0x22 => self.add_while(code, at),
            _ => {
                let (op, next) = instruction(code, at);
                self.push(op, at);
                next
            }
        }
    }

    fn add_if_else(&mut self, code: &[u8], at: usize) -> usize {
        let (test, next) = comparison(code, at + 9);
        let head = self.push(Op::IfElse(test, 0), at + 9);
        let mid = self.add_code(code, next);
        if code[mid] == 0x20 && length_at(code, mid + 1) == 0 {
            // An empty false part: there is nothing to jump over.
            self.ops[head] = Op::IfElse(test, self.end());
            return mid + 5;
        }
        let jump = self.push(Op::Jump(0), mid);
        self.ops[head] = Op::IfElse(test, self.end());
        let behind = self.add_code(code, mid);
        self.ops[jump] = Op::Jump(self.end());
        behind
    }

    fn add_while(&mut self, code: &[u8], at: usize) -> usize {
        let (test, next) = comparison(code, at + 5);
        let head = self.push(Op::While(0), at);
        let body = self.end();
        let behind = self.add_code(code, next);
        self.ops[head] = Op::While(self.end());
        self.push(Op::Test(test, body, at as u32), at + 5);
        behind
    }
}

// Running.

/// The 64-bit cell that an operand names, with these registers, or the number of its check. Kept out of line, so that
/// what is done with registers alone stays short.
#[inline(never)]
fn cell(machine: &Machine, operand: &Operand, regs: &[u64; 16], absent: u8) -> Result<usize, u8> {
    let address = match *operand {
        Operand::MConst(n) => Some(n),
        Operand::MReg(base, offset) => regs[number(base)].checked_add_signed(offset),
        Operand::MIndex(base, scale, index, offset) => {
            indexed(regs[number(base)], scale, regs[number(index)], offset)
        }
        Operand::Const(_) | Operand::Reg(_) => return Err(absent),
    };
    machine.cell(address, absent)
}

#[inline(always)]
fn read(machine: &Machine, operand: &Operand) -> Result<u64, u8> {
    match *operand {
        Operand::Const(n) => Ok(n),
        Operand::Reg(r) => Ok(machine.regs[number(r)]),
        _ => cell(machine, operand, &machine.regs, 31).map(|i| machine.values[i]),
    }
}

#[inline(always)]
fn slot(machine: &Machine, operand: &Operand, regs: &[u64; 16]) -> Result<Slot, u8> {
    match *operand {
        Operand::Reg(r) => Ok(Slot::Reg(r)),
        _ => cell(machine, operand, regs, 32).map(Slot::Cell),
    }
}

/// Inlined with a kind that is known, so that each element has a copy with nothing of the other kinds in it.
#[inline(always)]
fn two(machine: &mut Machine, kind: u8, dst: &Operand, src: &Operand) -> Result<(), u8> {
    let b = read(machine, src)?;
    if matches!(kind, 0x0d | 0x0e) && b > 63 {
        return Err(33);
    }
    let slot = slot(machine, dst, &machine.regs)?;
    machine.two(kind, slot, b);
    Ok(())
}

fn write(machine: &mut Machine, dst: &Operand, word: u64) -> Result<(), u8> {
    let slot = slot(machine, dst, &machine.regs)?;
    *machine.word(slot) = word;
    Ok(())
}

fn add_lea(machine: &mut Machine, dst: &Operand, one: &Operand, two: &Operand) -> Result<(), u8> {
    let a = read(machine, one)?;
    let b = read(machine, two)?;
    write(machine, dst, a.wrapping_add(b))
}

fn mulx(machine: &mut Machine, hi: &Operand, lo: &Operand, src: &Operand) -> Result<(), u8> {
    let b = read(machine, src)?;
    let low = slot(machine, lo, &machine.regs)?;
    machine.mulx(b, low, |machine, regs| slot(machine, hi, regs))
}

#[inline(always)]
fn compare(machine: &mut Machine, test: &Comparison) -> Result<bool, u8> {
    let Comparison(kind, one, two) = test;
    let a = read(machine, one)?;
    let b = read(machine, two)?;
    machine.steps += 1;
    machine.flags = machine.fill;
    open_both(&mut machine.watch);
    Ok(holds(*kind, a, b))
}

/// Makes an instruction. The elements of structures are for `run` to follow.
#[inline(always)]
fn step(machine: &mut Machine, op: &Op) -> Result<(), u8> {
    match op {
        Op::Mov64(dst, src) => two(machine, 0x01, dst, src),
        Op::Add64(dst, src) => two(machine, 0x02, dst, src),
        Op::AddCarry64(dst, src) => two(machine, 0x04, dst, src),
        Op::Adcx64(dst, src) => two(machine, 0x05, dst, src),
        Op::Adox64(dst, src) => two(machine, 0x06, dst, src),
        Op::Sub64(dst, src) => two(machine, 0x07, dst, src),
        Op::IMul64(dst, src) => two(machine, 0x0a, dst, src),
        Op::Xor64(dst, src) => two(machine, 0x0b, dst, src),
        Op::And64(dst, src) => two(machine, 0x0c, dst, src),
        Op::Shr64(dst, src) => two(machine, 0x0d, dst, src),
        Op::Shl64(dst, src) => two(machine, 0x0e, dst, src),
        Op::Popcnt64(dst, src) => two(machine, 0x19, dst, src),
        Op::Lzcnt64(dst, src) => two(machine, 0x1a, dst, src),
        Op::Tzcnt64(dst, src) => two(machine, 0x1b, dst, src),
        Op::AddLea64(dst, one, two) => add_lea(machine, dst, one, two),
        Op::Mul64(src) => read(machine, src).map(|b| machine.mul(b)),
        Op::Mulx64(hi, lo, src) => mulx(machine, hi, lo, src),
        Op::Lanes(kind, dst, src) => machine.lanes(*kind, *dst, *src),
        Op::Shuffle(kind, dst, src, imm) => machine.shuffle(*kind, *dst, *src, *imm),
        Op::Extract(src, index, dst) => write(machine, dst, machine.extracted(*src, *index)),
        Op::Insert(kind, dst, index, src) => {
            read(machine, src).map(|word| machine.insert(*kind, *dst, *index, word))
        }
        Op::IfElse(..) | Op::Jump(_) | Op::While(_) | Op::Test(..) => Ok(()),
    }
}

impl Op {
    /// The kind of an instruction that sets or reads flags; 0 for every other element.
    #[inline(always)]
    fn kind(&self) -> u8 {
        match self {
            Op::Add64(..) => 0x02,
            Op::AddCarry64(..) => 0x04,
            Op::Adcx64(..) => 0x05,
            Op::Adox64(..) => 0x06,
            Op::Sub64(..) => 0x07,
            Op::Mul64(..) => 0x08,
            Op::IMul64(..) => 0x0a,
            Op::Xor64(..) => 0x0b,
            Op::And64(..) => 0x0c,
            Op::Shr64(..) => 0x0d,
            Op::Shl64(..) => 0x0e,
            Op::Lanes(kind, ..) => *kind,
            Op::Popcnt64(..) => 0x19,
            Op::Lzcnt64(..) => 0x1a,
            Op::Tzcnt64(..) => 0x1b,
            _ => 0,
        }
    }
}

impl Program {
    /// A watch whose mark, in a run of elements, is one's index: with its place.
    pub fn placed(&self, watch: Watch) -> Watch {
        let mark = watch.mark.map(|index| self.places[index] as usize);
        Watch { mark, ..watch }
    }

    pub fn run(&self, machine: &mut Machine, fuel: u32) -> Result<(), Stop> {
        // What is left to the innermost While, and what was left to each around it.
        let mut left = fuel;
        let mut outer = Vec::new();
        let mut next = 0;
        while let Some(op) = self.ops.get(next) {
            let place = || self.places[next] as usize;
            let fault = |number| Stop::Fault(number, place());
            let mut to = next + 1;
            match op {
                Op::Jump(end) => to = *end as usize,
                Op::While(test) => {
                    outer.push(left);
                    to = *test as usize;
                }
                Op::Test(_, _, place) if left == 0 => return Err(Stop::Spent(*place as usize)),
                _ if machine.steps == machine.limit => return Err(Stop::Limit(place())),
                Op::IfElse(test, otherwise) => {
                    if !compare(machine, test).map_err(fault)? {
                        to = *otherwise as usize;
                    }
                }
                Op::Test(test, body, _) => {
                    if compare(machine, test).map_err(fault)? {
                        left -= 1;
                        to = *body as usize;
                    } else {
                        left = outer.pop().expect("the fuel of a While that was met");
                    }
                }
                _ => {
                    step(machine, op).map_err(fault)?;
                    machine.steps += 1;
                    see(&mut machine.watch, op.kind(), machine.evaluation, next);
                }
            }
            next = to;
        }
        Ok(())
    }
}
