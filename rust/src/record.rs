//! Instructions and comparisons as the C interface takes them: a kind byte, and arrays of which the kind says what is
//! looked at.

use crate::kernel::{Comparison, Instruction, Operand};

#[derive(Default)]
pub struct Record {
    pub kind: u8,
    pub body: [u8; 3],
    pub operands: [u8; 3],
    pub bases: [u8; 3],
    pub indexes: [u8; 3],
    pub scales: [i16; 3],
    pub numbers: [u64; 3],
    pub offsets: [i64; 3],
}

impl Record {
    fn new(kind: u8, body: &[u8], operands: &[Operand]) -> Record {
        let mut record = Record {
            kind,
            ..Record::default()
        };
        record.body[..body.len()].copy_from_slice(body);
        for (i, operand) in operands.iter().enumerate() {
            record.set_operand(i, *operand);
        }
        record
    }

    fn set_operand(&mut self, i: usize, operand: Operand) {
        self.operands[i] = match operand {
            Operand::OConst(number) => {
                self.numbers[i] = number;
                0x40
            }
            Operand::OReg(reg) => {
                self.bases[i] = reg.0;
                0x41
            }
            Operand::MConst(address) => {
                self.numbers[i] = address;
                0x42
            }
            Operand::MReg(reg, offset) => {
                (self.bases[i], self.offsets[i]) = (reg.0, offset);
                0x43
            }
            Operand::MIndex {
                base,
                scale,
                index,
                offset,
            } => {
                (self.bases[i], self.scales[i]) = (base.0, scale);
                (self.indexes[i], self.offsets[i]) = (index.0, offset);
                0x44
            }
        };
    }
}

impl From<Instruction> for Record {
    fn from(instruction: Instruction) -> Record {
        use Instruction::*;
        match instruction {
            Mov64(dst, src) => Record::new(0x01, &[], &[dst, src]),
            Add64(dst, src) => Record::new(0x02, &[], &[dst, src]),
            AddLea64(dst, src1, src2) => Record::new(0x03, &[], &[dst, src1, src2]),
            AddCarry64(dst, src) => Record::new(0x04, &[], &[dst, src]),
            Adcx64(dst, src) => Record::new(0x05, &[], &[dst, src]),
            Adox64(dst, src) => Record::new(0x06, &[], &[dst, src]),
            Sub64(dst, src) => Record::new(0x07, &[], &[dst, src]),
            Mul64(src) => Record::new(0x08, &[], &[src]),
            Mulx64(dst_hi, dst_lo, src) => Record::new(0x09, &[], &[dst_hi, dst_lo, src]),
            IMul64(dst, src) => Record::new(0x0a, &[], &[dst, src]),
            Xor64(dst, src) => Record::new(0x0b, &[], &[dst, src]),
            And64(dst, src) => Record::new(0x0c, &[], &[dst, src]),
            Shr64(dst, amount) => Record::new(0x0d, &[], &[dst, amount]),
            Shl64(dst, amount) => Record::new(0x0e, &[], &[dst, amount]),
            Paddd(dst, src) => Record::new(0x0f, &[dst.0, src.0], &[]),
            Pxor(dst, src) => Record::new(0x10, &[dst.0, src.0], &[]),
            Pslld(dst, amount) => Record::new(0x11, &[dst.0, amount], &[]),
            Psrld(dst, amount) => Record::new(0x12, &[dst.0, amount], &[]),
            Pshufd(dst, src, order) => Record::new(0x13, &[dst.0, src.0, order], &[]),
            Pcmpeqd(dst, src) => Record::new(0x14, &[dst.0, src.0], &[]),
            Pextrq(dst, src, index) => Record::new(0x15, &[src.0, index], &[dst]),
            Pinsrd(dst, src, index) => Record::new(0x16, &[dst.0, index], &[src]),
            Pinsrq(dst, src, index) => Record::new(0x17, &[dst.0, index], &[src]),
            VPSLLDQ(dst, src, count) => Record::new(0x18, &[dst.0, src.0, count], &[]),
            Popcnt64(dst, src) => Record::new(0x19, &[], &[dst, src]),
            Lzcnt64(dst, src) => Record::new(0x1a, &[], &[dst, src]),
            Tzcnt64(dst, src) => Record::new(0x1b, &[], &[dst, src]),
        }
    }
}

impl From<Comparison> for Record {
    fn from(comparison: Comparison) -> Record {
        use Comparison::*;
        match comparison {
            OEq(a, b) => Record::new(0x30, &[], &[a, b]),
            ONe(a, b) => Record::new(0x31, &[], &[a, b]),
            OLe(a, b) => Record::new(0x32, &[], &[a, b]),
            OGe(a, b) => Record::new(0x33, &[], &[a, b]),
            OLt(a, b) => Record::new(0x34, &[], &[a, b]),
            OGt(a, b) => Record::new(0x35, &[], &[a, b]),
        }
    }
}
