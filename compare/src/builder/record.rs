//! Calls as the C interface has them: an instruction or a comparison is a
//! kind byte and seven arrays, of which the kind says what is looked at.

use super::calls::Call;
use crate::rng::Rng;
use crate::tree::Instruction::*;
use crate::tree::*;
use crate::writer::{comparison_kind, instruction_fields};

#[derive(Clone, Debug)]
pub struct Record {
    pub kind: u8,
    pub body: [u8; 3],
    pub operands: [u8; 3],
    pub bases: [u8; 3],
    pub indexes: [u8; 3],
    pub scales: [i16; 3],
    pub numbers: [u64; 3],
    pub offsets: [i64; 3],
}

#[derive(Clone, Copy, Debug, PartialEq, Eq, PartialOrd, Ord)]
pub enum Entry {
    OpenBlock,
    OpenIfElse,
    OpenWhile,
    Add,
    Close,
}

impl Entry {
    pub fn takes_a_record(self) -> bool {
        !matches!(self, Entry::OpenBlock | Entry::Close)
    }
}

/// A function of the interface with the record it is given, if it takes one.
#[derive(Clone, Debug)]
pub struct RawCall {
    pub entry: Entry,
    pub record: Record,
}

/// Kind bytes inside, at and beyond the ends of the ranges.
const KINDS: [u8; 18] = [
    0x00, 0x01, 0x08, 0x0f, 0x15, 0x18, 0x19, 0x1b, 0x1c, 0x1f, 0x20, 0x22, 0x2f, 0x30, 0x35, 0x36,
    0x40, 0xff,
];
const OPERANDS: [u8; 10] = [0x40, 0x41, 0x42, 0x43, 0x44, 0x3f, 0x45, 0x00, 0x30, 0xff];

// Reading a record.
impl RawCall {
    /// None where the record is no value, which C answers with 2.
    pub fn value(&self) -> Option<Call> {
        Some(match self.entry {
            Entry::OpenBlock => Call::OpenBlock,
            Entry::OpenIfElse => Call::OpenIfElse(self.record.comparison()?),
            Entry::OpenWhile => Call::OpenWhile(self.record.comparison()?),
            Entry::Add => Call::Add(self.record.instruction()?),
            Entry::Close => Call::Close,
        })
    }
}

impl Record {
    fn operand(&self, i: usize) -> Option<Operand> {
        let (base, offset) = (self.bases[i], self.offsets[i]);
        Some(match self.operands[i] {
            0x40 => Operand::Const(self.numbers[i]),
            0x41 => Operand::Reg(base),
            0x42 => Operand::Mem(Maddr::Const(self.numbers[i])),
            0x43 => Operand::Mem(Maddr::Reg(base, offset)),
            0x44 => Operand::Mem(Maddr::Index(base, self.scales[i], self.indexes[i], offset)),
            _ => return None,
        })
    }

    fn comparison(&self) -> Option<Ocmp> {
        let number = self.kind.checked_sub(0x30)?;
        let relation = *RELATIONS.get(usize::from(number))?;
        Some(Ocmp::unplaced(relation, self.operand(0)?, self.operand(1)?))
    }

    fn instruction(&self) -> Option<Instruction> {
        let [a, b, c] = self.body;
        let o = |i| self.operand(i);
        Some(match self.kind {
            0x01 => Mov64(o(0)?, o(1)?),
            0x02 => Add64(o(0)?, o(1)?),
            0x03 => AddLea64(o(0)?, o(1)?, o(2)?),
            0x04 => AddCarry64(o(0)?, o(1)?),
            0x05 => Adcx64(o(0)?, o(1)?),
            0x06 => Adox64(o(0)?, o(1)?),
            0x07 => Sub64(o(0)?, o(1)?),
            0x08 => Mul64(o(0)?),
            0x09 => Mulx64(o(0)?, o(1)?, o(2)?),
            0x0a => IMul64(o(0)?, o(1)?),
            0x0b => Xor64(o(0)?, o(1)?),
            0x0c => And64(o(0)?, o(1)?),
            0x0d => Shr64(o(0)?, o(1)?),
            0x0e => Shl64(o(0)?, o(1)?),
            0x0f => Paddd(a, b),
            0x10 => Pxor(a, b),
            0x11 => Pslld(a, b),
            0x12 => Psrld(a, b),
            0x13 => Pshufd(a, b, c),
            0x14 => Pcmpeqd(a, b),
            0x15 => Pextrq(o(0)?, a, b),
            0x16 => Pinsrd(a, o(0)?, b),
            0x17 => Pinsrq(a, o(0)?, b),
            0x18 => Vpslldq(a, b, c),
            0x19 => Popcnt64(o(0)?, o(1)?),
            0x1a => Lzcnt64(o(0)?, o(1)?),
            0x1b => Tzcnt64(o(0)?, o(1)?),
            _ => return None,
        })
    }
}

// Making one.
impl RawCall {
    /// A value's record. What its kind does not have is left to chance, since
    /// it has to be ignored.
    pub fn of(call: &Call, rng: &mut Rng) -> RawCall {
        let mut record = Record::any(rng);
        let entry = match call {
            Call::OpenBlock => Entry::OpenBlock,
            Call::OpenIfElse(c) => record.compare(Entry::OpenIfElse, c),
            Call::OpenWhile(c) => record.compare(Entry::OpenWhile, c),
            Call::Add(instruction) => {
                let (head, operands) = instruction_fields(instruction);
                record.set(&head, &operands);
                Entry::Add
            }
            Call::Close => Entry::Close,
        };
        RawCall { entry, record }
    }

    /// A record of this kind, body and operands, the rest left to chance.
    pub fn with(entry: Entry, head: &[u8], operands: &[Operand], rng: &mut Rng) -> RawCall {
        let mut record = Record::any(rng);
        record.set(head, operands);
        RawCall { entry, record }
    }

    /// Any record at all, most of them no values.
    pub fn any(rng: &mut Rng) -> RawCall {
        let entry = rng.pick(&[Entry::OpenIfElse, Entry::OpenWhile, Entry::Add, Entry::Add]);
        let record = Record::any(rng);
        RawCall { entry, record }
    }
}

/// One that there is, or any number.
fn any_scale(rng: &mut Rng) -> i16 {
    match rng.below(4) {
        0 => rng.other_scale(),
        1 => rng.word() as i16,
        _ => rng.scale(),
    }
}

impl Record {
    fn any(rng: &mut Rng) -> Record {
        Record {
            kind: rng.pick(&KINDS),
            body: std::array::from_fn(|_| rng.edge_byte()),
            operands: std::array::from_fn(|_| rng.pick(&OPERANDS)),
            bases: std::array::from_fn(|_| rng.edge_byte()),
            indexes: std::array::from_fn(|_| rng.edge_byte()),
            scales: std::array::from_fn(|_| any_scale(rng)),
            numbers: std::array::from_fn(|_| rng.edge_word()),
            offsets: std::array::from_fn(|_| rng.edge_word() as i64),
        }
    }

    fn compare(&mut self, entry: Entry, ocmp: &Ocmp) -> Entry {
        self.set(&[comparison_kind(ocmp)], &[ocmp.left, ocmp.right]);
        entry
    }

    /// Sets the kind, the body behind it, and the operands.
    fn set(&mut self, head: &[u8], operands: &[Operand]) {
        self.kind = head[0];
        self.body[..head.len() - 1].copy_from_slice(&head[1..]);
        for (i, operand) in operands.iter().enumerate() {
            self.set_operand(i, operand);
        }
    }

    fn set_operand(&mut self, i: usize, operand: &Operand) {
        self.operands[i] = match *operand {
            Operand::Const(n) => {
                self.numbers[i] = n;
                0x40
            }
            Operand::Reg(reg) => {
                self.bases[i] = reg;
                0x41
            }
            Operand::Mem(Maddr::Const(n)) => {
                self.numbers[i] = n;
                0x42
            }
            Operand::Mem(Maddr::Reg(reg, offset)) => {
                (self.bases[i], self.offsets[i]) = (reg, offset);
                0x43
            }
            Operand::Mem(Maddr::Index(base, scale, index, offset)) => {
                (self.bases[i], self.offsets[i]) = (base, offset);
                (self.indexes[i], self.scales[i]) = (index, scale);
                0x44
            }
        };
    }
}

#[cfg(test)]
mod tests {
    use super::super::values::Values;
    use super::*;

    #[test]
    fn values_come_back_from_their_records() {
        let mut rng = Rng::new(1);
        for _ in 0..2_000 {
            let call = Values::new(&mut rng, 20).call();
            assert_eq!(RawCall::of(&call, &mut rng).value(), Some(call));
        }
    }

    #[test]
    fn counts_are_looked_at_for_two_operands() {
        let mut rng = Rng::new(3);
        let (dst, src) = (Operand::Reg(1), Operand::Mem(Maddr::Reg(2, -3)));
        for (kind, count) in (0x19..).zip(COUNTS) {
            let mut raw = RawCall::with(Entry::Add, &[kind], &[dst, src], &mut rng);
            raw.record.operands[2] = 0;
            assert_eq!(raw.value(), Some(Call::Add(count(dst, src))));
            for i in [0, 1] {
                let mut spoiled = raw.clone();
                spoiled.record.operands[i] = 0x45;
                assert_eq!(spoiled.value(), None);
            }
        }
    }

    #[test]
    fn what_is_no_value() {
        let mut rng = Rng::new(2);
        let add = Call::Add(Mul64(Operand::Reg(0)));
        let mut raw = RawCall::of(&add, &mut rng);
        raw.record.operands = [0x41, 0, 0xff];
        assert_eq!(raw.value(), Some(add), "only the first is looked at");
        for kind in [0x3f, 0x45, 0x00, 0xff] {
            raw.record.operands[0] = kind;
            assert_eq!(raw.value(), None);
        }
        raw.record.operands = [0x40; 3];
        for kind in [0x00, 0x1c, 0x1f, 0x20, 0x2f, 0x30, 0x35, 0x36, 0x40, 0xff] {
            raw.record.kind = kind;
            raw.entry = Entry::Add;
            assert_eq!(raw.value(), None, "{kind:x} is no instruction");
            raw.entry = Entry::OpenWhile;
            assert_eq!(raw.value().is_some(), (0x30..=0x35).contains(&kind));
        }
    }
}
