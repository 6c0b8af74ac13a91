//! Instructions, comparisons and operands, in the names of documents 01 and 02 and with the source's order of fields.

/// A register by its number in state order, which is not the processor's. A number above 15 is no register's; a
/// build refuses it.
#[derive(Clone, Copy, Debug, PartialEq, Eq)]
pub struct Reg(pub u8);

impl Reg {
    pub const RAX: Reg = Reg(0);
    pub const RBX: Reg = Reg(1);
    pub const RCX: Reg = Reg(2);
    pub const RDX: Reg = Reg(3);
    pub const RSI: Reg = Reg(4);
    pub const RDI: Reg = Reg(5);
    pub const RBP: Reg = Reg(6);
    pub const RSP: Reg = Reg(7);
    pub const R8: Reg = Reg(8);
    pub const R9: Reg = Reg(9);
    pub const R10: Reg = Reg(10);
    pub const R11: Reg = Reg(11);
    pub const R12: Reg = Reg(12);
    pub const R13: Reg = Reg(13);
    pub const R14: Reg = Reg(14);
    pub const R15: Reg = Reg(15);
}

/// An xmm register by its number. One above 15 is none's; a build refuses it.
#[derive(Clone, Copy, Debug, PartialEq, Eq)]
pub struct Xmm(pub u8);

/// A constant, a register, or memory at an exact address.
#[derive(Clone, Copy, Debug, PartialEq, Eq)]
pub enum Operand {
    OConst(u64),
    OReg(Reg),
    /// At this address.
    MConst(u64),
    /// At register + offset.
    MReg(Reg, i64),
    /// At base + scale * index + offset. The scale is 1, 2, 4 or 8; a build refuses any other.
    MIndex {
        base: Reg,
        scale: i16,
        index: Reg,
        offset: i64,
    },
}

/// An instruction. The destination stands first, then sources, then an amount, permutation, index or count.
#[derive(Clone, Copy, Debug, PartialEq, Eq)]
pub enum Instruction {
    Mov64(Operand, Operand),
    Add64(Operand, Operand),
    /// The sum of two sources.
    AddLea64(Operand, Operand, Operand),
    AddCarry64(Operand, Operand),
    Adcx64(Operand, Operand),
    Adox64(Operand, Operand),
    Sub64(Operand, Operand),
    /// Its one operand is a source: the destinations are Rdx and Rax.
    Mul64(Operand),
    /// The destination of the high half, of the low half, and the source.
    Mulx64(Operand, Operand, Operand),
    IMul64(Operand, Operand),
    Xor64(Operand, Operand),
    And64(Operand, Operand),
    Shr64(Operand, Operand),
    Shl64(Operand, Operand),
    Paddd(Xmm, Xmm),
    Pxor(Xmm, Xmm),
    Pslld(Xmm, u8),
    Psrld(Xmm, u8),
    Pshufd(Xmm, Xmm, u8),
    Pcmpeqd(Xmm, Xmm),
    Pextrq(Operand, Xmm, u8),
    Pinsrd(Xmm, Operand, u8),
    Pinsrq(Xmm, Operand, u8),
    VPSLLDQ(Xmm, Xmm, u8),
    /// The ones of the source's 64 bits. The destination is not read, here and in the two below. Leaves the fill word in
    /// the flags, without carry and overflow.
    Popcnt64(Operand, Operand),
    /// The zeros above the highest one of the source, 64 for 0. Leaves the fill word in the flags, with carry where the
    /// source is 0 and without elsewhere.
    Lzcnt64(Operand, Operand),
    /// The zeros below the lowest one of the source, 64 for 0. Leaves the fill word in the flags, with carry where the
    /// source is 0 and without elsewhere.
    Tzcnt64(Operand, Operand),
}

/// A comparison of two operands, unsigned.
#[derive(Clone, Copy, Debug, PartialEq, Eq)]
pub enum Comparison {
    OEq(Operand, Operand),
    ONe(Operand, Operand),
    OLe(Operand, Operand),
    OGe(Operand, Operand),
    OLt(Operand, Operand),
    OGt(Operand, Operand),
}
