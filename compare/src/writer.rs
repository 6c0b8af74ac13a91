//! Writes a tree down as bytes.

use crate::tree::Instruction::*;
use crate::tree::*;

pub fn write(code: &Code) -> Vec<u8> {
    match &code.node {
        Node::Ins(ins) => write_instruction(ins),
        Node::Block(codes) => {
            let part: Vec<u8> = codes.iter().flat_map(write).collect();
            let mut out = vec![0x20];
            push_length(&mut out, part.len());
            out.extend(part);
            out
        }
        Node::IfElse(condition, if_true, if_false) => {
            let (yes, no) = (write(if_true), write(if_false));
            let mut out = vec![0x21];
            push_length(&mut out, yes.len());
            push_length(&mut out, no.len());
            push_comparison(&mut out, condition);
            out.extend(yes);
            out.extend(no);
            out
        }
        Node::While(condition, body) => {
            let part = write(body);
            let mut out = vec![0x22];
            push_length(&mut out, part.len());
            push_comparison(&mut out, condition);
            out.extend(part);
            out
        }
    }
}

pub fn push_length(out: &mut Vec<u8>, length: usize) {
    out.extend((length as u32).to_le_bytes());
}

pub fn push_comparison(out: &mut Vec<u8>, ocmp: &Ocmp) {
    out.push(comparison_kind(ocmp));
    push_operands(out, &[ocmp.left, ocmp.right]);
}

pub fn comparison_kind(ocmp: &Ocmp) -> u8 {
    let number = RELATIONS.iter().position(|r| *r == ocmp.relation);
    0x30 + number.expect("a relation of the six") as u8
}

fn push_operands(out: &mut Vec<u8>, operands: &[Operand]) {
    for operand in operands {
        push_operand(out, operand);
    }
}

pub fn operand_length(operand: &Operand) -> usize {
    let mut bytes = Vec::new();
    push_operand(&mut bytes, operand);
    bytes.len()
}

fn push_operand(out: &mut Vec<u8>, operand: &Operand) {
    match *operand {
        Operand::Const(n) => {
            out.push(0x40);
            out.extend(n.to_le_bytes());
        }
        Operand::Reg(reg) => out.extend([0x41, reg]),
        Operand::Mem(Maddr::Const(n)) => {
            out.push(0x42);
            out.extend(n.to_le_bytes());
        }
        Operand::Mem(Maddr::Reg(reg, offset)) => {
            out.extend([0x43, reg]);
            out.extend(offset.to_le_bytes());
        }
        Operand::Mem(Maddr::Index(base, scale, index, offset)) => {
            out.extend([0x44, base]);
            out.extend(scale.to_le_bytes());
            out.push(index);
            out.extend(offset.to_le_bytes());
        }
    }
}

pub fn write_instruction(ins: &Instruction) -> Vec<u8> {
    let (mut out, operands) = instruction_fields(ins);
    push_operands(&mut out, &operands);
    out
}

/// The kind with the body behind it, and the operands that follow.
pub fn instruction_fields(ins: &Instruction) -> (Vec<u8>, Vec<Operand>) {
    let record = |head: &[u8], operands: &[Operand]| (head.to_vec(), operands.to_vec());
    match *ins {
        Mov64(dst, src) => record(&[0x01], &[dst, src]),
        Add64(dst, src) => record(&[0x02], &[dst, src]),
        AddLea64(dst, src1, src2) => record(&[0x03], &[dst, src1, src2]),
        AddCarry64(dst, src) => record(&[0x04], &[dst, src]),
        Adcx64(dst, src) => record(&[0x05], &[dst, src]),
        Adox64(dst, src) => record(&[0x06], &[dst, src]),
        Sub64(dst, src) => record(&[0x07], &[dst, src]),
        Mul64(src) => record(&[0x08], &[src]),
        Mulx64(dst_hi, dst_lo, src) => record(&[0x09], &[dst_hi, dst_lo, src]),
        IMul64(dst, src) => record(&[0x0a], &[dst, src]),
        Xor64(dst, src) => record(&[0x0b], &[dst, src]),
        And64(dst, src) => record(&[0x0c], &[dst, src]),
        Shr64(dst, amt) => record(&[0x0d], &[dst, amt]),
        Shl64(dst, amt) => record(&[0x0e], &[dst, amt]),
        Paddd(dst, src) => record(&[0x0f, dst, src], &[]),
        Pxor(dst, src) => record(&[0x10, dst, src], &[]),
        Pslld(dst, amt) => record(&[0x11, dst, amt], &[]),
        Psrld(dst, amt) => record(&[0x12, dst, amt], &[]),
        Pshufd(dst, src, permutation) => record(&[0x13, dst, src, permutation], &[]),
        Pcmpeqd(dst, src) => record(&[0x14, dst, src], &[]),
        Pextrq(dst, src, index) => record(&[0x15, src, index], &[dst]),
        Pinsrd(dst, src, index) => record(&[0x16, dst, index], &[src]),
        Pinsrq(dst, src, index) => record(&[0x17, dst, index], &[src]),
        Vpslldq(dst, src, count) => record(&[0x18, dst, src, count], &[]),
        Popcnt64(dst, src) => record(&[0x19], &[dst, src]),
        Lzcnt64(dst, src) => record(&[0x1a], &[dst, src]),
        Tzcnt64(dst, src) => record(&[0x1b], &[dst, src]),
    }
}
