//! Code records, written down.

pub type Code = Vec<u8>;

pub const ADD64: u8 = 0x02;
pub const RAX: u8 = 0;
pub const RBX: u8 = 1;
pub const RCX: u8 = 2;
pub const RDX: u8 = 3;
pub const RSI: u8 = 4;
pub const RDI: u8 = 5;
pub const RBP: u8 = 6;
pub const RSP: u8 = 7;

pub fn constant(n: u64) -> Code {
    [&[0x40], &n.to_le_bytes()[..]].concat()
}

pub fn reg(r: u8) -> Code {
    vec![0x41, r]
}

/// Memory at a constant address.
pub fn at(address: u64) -> Code {
    [&[0x42], &address.to_le_bytes()[..]].concat()
}

/// Memory at a register and an offset.
pub fn at_reg(base: u8, offset: i64) -> Code {
    [&[0x43, base], &offset.to_le_bytes()[..]].concat()
}

/// Memory at a register, a register times a scale of 1, 2, 4 or 8, and an offset.
pub fn at_index(base: u8, scale: u8, index: u8, offset: i64) -> Code {
    [&[0x44, base, scale, 0, index], &offset.to_le_bytes()[..]].concat()
}

/// An instruction or a comparison: its kind, the bytes of its body, and its operands.
pub fn record(kind: u8, body: &[u8], operands: &[Code]) -> Code {
    [&[kind], body, &operands.concat()].concat()
}

pub fn two(kind: u8, dst: Code, src: Code) -> Code {
    record(kind, &[], &[dst, src])
}

fn length(code: &Code) -> [u8; 4] {
    (code.len() as u32).to_le_bytes()
}

pub fn block(codes: &[Code]) -> Code {
    let codes = codes.concat();
    [&[0x20], &length(&codes)[..], &codes].concat()
}

pub fn if_else(comparison: Code, yes: Code, no: Code) -> Code {
    let lengths = [length(&yes), length(&no)].concat();
    [vec![0x21], lengths, comparison, yes, no].concat()
}

pub fn while_holds(comparison: Code, body: Code) -> Code {
    [&[0x22], &length(&body)[..], &comparison, &body].concat()
}
