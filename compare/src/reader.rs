//! Checking code: the bytes become a tree, or the first trouble is named with
//! its number and its place.

use crate::places::Next;
use crate::tree::Instruction::*;
use crate::tree::*;

pub const LONGEST: usize = 16_384;
pub const DEEPEST: usize = 32;

#[derive(Clone, Copy, Debug, PartialEq, Eq)]
pub struct Trouble {
    pub number: u8,
    pub place: usize,
}

type Read<T> = Result<T, Trouble>;

/// Which scales an MIndex may have.
#[derive(Clone, Copy, Debug, PartialEq, Eq)]
pub enum Rule {
    /// One of `SCALES`; any other is trouble 7.
    Today,
    /// Any 16-bit number. For what was printed by it, and for inner checks.
    LastYear,
}

/// The scales that machine code has.
pub const SCALES: [i16; 4] = [1, 2, 4, 8];

impl Rule {
    fn allows(self, scale: i16) -> bool {
        self == Rule::LastYear || SCALES.contains(&scale)
    }
}

fn trouble<T>(number: u8, place: usize) -> Read<T> {
    Err(Trouble { number, place })
}

/// Reads a whole input, which one code has to fill.
pub fn read(bytes: &[u8]) -> Read<Code> {
    read_by(Rule::Today, bytes)
}

pub fn read_by(rule: Rule, bytes: &[u8]) -> Read<Code> {
    Reader::new(rule, bytes).whole()
}

/// Whose operands came last before the reader stopped: where a field of an
/// operand is refused, what the operand belongs to.
pub fn last_holder(bytes: &[u8]) -> Option<Next> {
    let mut reader = Reader::new(Rule::Today, bytes);
    reader.whole().err()?;
    reader.holder
}

struct Reader<'a> {
    rule: Rule,
    bytes: &'a [u8],
    at: usize,
    /// What the operands that are read belong to.
    holder: Option<Next>,
}

impl<'a> Reader<'a> {
    fn new(rule: Rule, bytes: &'a [u8]) -> Reader<'a> {
        Reader {
            rule,
            bytes,
            at: 0,
            holder: None,
        }
    }

    fn whole(&mut self) -> Read<Code> {
        let length = self.bytes.len();
        if length == 0 || length > LONGEST {
            return trouble(1, 0);
        }
        self.only_code(length, 1)
    }
}

// The steps that every record takes. `end` is the end of the enclosing part.
impl Reader<'_> {
    /// 3 where no byte is left for the kind, 2 where the kind is not allowed.
    fn kind(&mut self, end: usize, allowed: fn(u8) -> bool) -> Read<u8> {
        if self.at >= end {
            return trouble(3, self.at);
        }
        let kind = self.bytes[self.at];
        if !allowed(kind) {
            return trouble(2, self.at);
        }
        self.at += 1;
        Ok(kind)
    }

    /// 3 at the kind byte unless the part still holds the whole body.
    fn whole_body(&self, place: usize, end: usize, length: usize) -> Read<()> {
        if end - self.at < length {
            return trouble(3, place);
        }
        Ok(())
    }

    fn byte(&mut self) -> u8 {
        let byte = self.bytes[self.at];
        self.at += 1;
        byte
    }

    fn low_first(&mut self, count: usize) -> u64 {
        let mut value = 0;
        for i in 0..count {
            value |= u64::from(self.byte()) << (8 * i);
        }
        value
    }

    /// A register or xmm number: 4 at the field when it is above 15.
    fn sixteenth(&mut self) -> Read<u8> {
        let field = self.at;
        let number = self.byte();
        if number > 15 {
            return trouble(4, field);
        }
        Ok(number)
    }

    /// 7 at the field's first byte when the rule does not have the scale.
    fn scale(&mut self) -> Read<i16> {
        let field = self.at;
        let scale = self.low_first(2) as u16 as i16;
        if !self.rule.allows(scale) {
            return trouble(7, field);
        }
        Ok(scale)
    }
}

// Operands and comparisons.
impl Reader<'_> {
    fn operand(&mut self, end: usize) -> Read<Operand> {
        let place = self.at;
        let kind = self.kind(end, |k| (0x40..=0x44).contains(&k))?;
        let length = match kind {
            0x41 => 1,
            0x43 => 9,
            0x44 => 12,
            _ => 8,
        };
        self.whole_body(place, end, length)?;
        match kind {
            0x40 => Ok(Operand::Const(self.low_first(8))),
            0x41 => Ok(Operand::Reg(self.sixteenth()?)),
            0x42 => Ok(Operand::Mem(Maddr::Const(self.low_first(8)))),
            0x43 => self.register_address(),
            _ => self.index_address(),
        }
    }

    fn register_address(&mut self) -> Read<Operand> {
        let reg = self.sixteenth()?;
        let offset = self.low_first(8) as i64;
        Ok(Operand::Mem(Maddr::Reg(reg, offset)))
    }

    fn index_address(&mut self) -> Read<Operand> {
        let base = self.sixteenth()?;
        let scale = self.scale()?;
        let index = self.sixteenth()?;
        let offset = self.low_first(8) as i64;
        Ok(Operand::Mem(Maddr::Index(base, scale, index, offset)))
    }

    fn comparison(&mut self, end: usize, holder: Next) -> Read<Ocmp> {
        let place = self.at;
        let kind = self.kind(end, |k| (0x30..=0x35).contains(&k))?;
        self.holder = Some(holder);
        let left = self.operand(end)?;
        let right = self.operand(end)?;
        Ok(Ocmp {
            place,
            relation: RELATIONS[usize::from(kind - 0x30)],
            left,
            right,
        })
    }
}

// Codes.
impl Reader<'_> {
    /// One code that has to fill its part: 6 at the first byte that follows it.
    fn only_code(&mut self, end: usize, depth: usize) -> Read<Code> {
        let code = self.code(end, depth)?;
        if self.at < end {
            return trouble(6, self.at);
        }
        Ok(code)
    }

    fn code(&mut self, end: usize, depth: usize) -> Read<Code> {
        let place = self.at;
        let kind = self.kind(end, |k| matches!(k, 0x01..=0x1b | 0x20..=0x22))?;
        if depth > DEEPEST {
            return trouble(5, place);
        }
        let node = match kind {
            0x20 => self.block(place, end, depth)?,
            0x21 => self.if_else(place, end, depth)?,
            0x22 => self.while_loop(place, end, depth)?,
            _ => Node::Ins(self.instruction(kind, place, end)?),
        };
        Ok(Code { place, node })
    }

    /// 6 at the structure when its parts do not fit in what is left.
    fn parts_fit(&self, place: usize, end: usize, length: u64) -> Read<()> {
        if length > (end - self.at) as u64 {
            return trouble(6, place);
        }
        Ok(())
    }

    fn block(&mut self, place: usize, end: usize, depth: usize) -> Read<Node> {
        self.whole_body(place, end, 4)?;
        let length = self.low_first(4);
        self.parts_fit(place, end, length)?;
        let part_end = self.at + length as usize;
        let mut codes = Vec::new();
        while self.at < part_end {
            codes.push(self.code(part_end, depth + 1)?);
        }
        Ok(Node::Block(codes))
    }

    fn if_else(&mut self, place: usize, end: usize, depth: usize) -> Read<Node> {
        self.whole_body(place, end, 8)?;
        let true_length = self.low_first(4);
        let false_length = self.low_first(4);
        let condition = self.comparison(end, Next::Choice)?;
        self.parts_fit(place, end, true_length + false_length)?;
        let true_end = self.at + true_length as usize;
        let false_end = true_end + false_length as usize;
        let if_true = self.only_code(true_end, depth + 1)?;
        let if_false = self.only_code(false_end, depth + 1)?;
        Ok(Node::IfElse(
            condition,
            Box::new(if_true),
            Box::new(if_false),
        ))
    }

    fn while_loop(&mut self, place: usize, end: usize, depth: usize) -> Read<Node> {
        self.whole_body(place, end, 4)?;
        let length = self.low_first(4);
        let condition = self.comparison(end, Next::Test)?;
        self.parts_fit(place, end, length)?;
        let body = self.only_code(self.at + length as usize, depth + 1)?;
        Ok(Node::While(condition, Box::new(body)))
    }
}

// Instructions.
impl Reader<'_> {
    fn instruction(&mut self, kind: u8, place: usize, end: usize) -> Read<Instruction> {
        self.holder = Some(Next::Instruction);
        match kind {
            0x01 => self.two(end, Mov64),
            0x02 => self.two(end, Add64),
            0x03 => self.three(end, AddLea64),
            0x04 => self.two(end, AddCarry64),
            0x05 => self.two(end, Adcx64),
            0x06 => self.two(end, Adox64),
            0x07 => self.two(end, Sub64),
            0x08 => Ok(Mul64(self.operand(end)?)),
            0x09 => self.three(end, Mulx64),
            0x0a => self.two(end, IMul64),
            0x0b => self.two(end, Xor64),
            0x0c => self.two(end, And64),
            0x0d => self.two(end, Shr64),
            0x0e => self.two(end, Shl64),
            0x0f => self.xmm_xmm(place, end, Paddd),
            0x10 => self.xmm_xmm(place, end, Pxor),
            0x11 => self.xmm_byte(place, end, Pslld),
            0x12 => self.xmm_byte(place, end, Psrld),
            0x13 => self.xmm_xmm_byte(place, end, Pshufd),
            0x14 => self.xmm_xmm(place, end, Pcmpeqd),
            0x15 => self.lane(place, end, |xmm, operand, i| Pextrq(operand, xmm, i)),
            0x16 => self.lane(place, end, Pinsrd),
            0x17 => self.lane(place, end, Pinsrq),
            0x18 => self.xmm_xmm_byte(place, end, Vpslldq),
            0x19 => self.two(end, Popcnt64),
            0x1a => self.two(end, Lzcnt64),
            _ => self.two(end, Tzcnt64),
        }
    }

    fn two(&mut self, end: usize, make: OfTwo) -> Read<Instruction> {
        let first = self.operand(end)?;
        let second = self.operand(end)?;
        Ok(make(first, second))
    }

    fn three(
        &mut self,
        end: usize,
        make: fn(Operand, Operand, Operand) -> Instruction,
    ) -> Read<Instruction> {
        let first = self.operand(end)?;
        let second = self.operand(end)?;
        let third = self.operand(end)?;
        Ok(make(first, second, third))
    }

    fn xmm_xmm(
        &mut self,
        place: usize,
        end: usize,
        make: fn(Xmm, Xmm) -> Instruction,
    ) -> Read<Instruction> {
        self.whole_body(place, end, 2)?;
        let dst = self.sixteenth()?;
        let src = self.sixteenth()?;
        Ok(make(dst, src))
    }

    fn xmm_byte(
        &mut self,
        place: usize,
        end: usize,
        make: fn(Xmm, u8) -> Instruction,
    ) -> Read<Instruction> {
        self.whole_body(place, end, 2)?;
        let dst = self.sixteenth()?;
        let amount = self.byte();
        Ok(make(dst, amount))
    }

    fn xmm_xmm_byte(
        &mut self,
        place: usize,
        end: usize,
        make: fn(Xmm, Xmm, u8) -> Instruction,
    ) -> Read<Instruction> {
        self.whole_body(place, end, 3)?;
        let dst = self.sixteenth()?;
        let src = self.sixteenth()?;
        let byte = self.byte();
        Ok(make(dst, src, byte))
    }

    /// An xmm number and an index in the body, one operand after it.
    fn lane(
        &mut self,
        place: usize,
        end: usize,
        make: fn(Xmm, Operand, u8) -> Instruction,
    ) -> Read<Instruction> {
        self.whole_body(place, end, 2)?;
        let xmm = self.sixteenth()?;
        let index = self.byte();
        let operand = self.operand(end)?;
        Ok(make(xmm, operand, index))
    }
}

#[cfg(test)]
#[path = "reader_tests.rs"]
mod tests;
