//! Code as a tree. Every record that an answer can name keeps its place, the
//! byte offset of its kind byte.

/// A register's number in the source's order: Rax 0, Rbx 1, Rcx 2, Rdx 3.
pub type Reg = u8;
pub type Xmm = u8;

pub const RAX: Reg = 0;
pub const RDX: Reg = 3;
pub const RSP: Reg = 7;

pub const REG_NAMES: [&str; 16] = [
    "Rax", "Rbx", "Rcx", "Rdx", "Rsi", "Rdi", "Rbp", "Rsp", "R8", "R9", "R10", "R11", "R12", "R13",
    "R14", "R15",
];

#[derive(Clone, Copy, Debug, PartialEq, Eq)]
pub enum Maddr {
    Const(u64),
    /// register, offset
    Reg(Reg, i64),
    /// base, scale, index, offset
    Index(Reg, i16, Reg, i64),
}

#[derive(Clone, Copy, Debug, PartialEq, Eq)]
pub enum Operand {
    Const(u64),
    Reg(Reg),
    Mem(Maddr),
}

/// The fields stand in the order of the source's `ins`; behind its 24 come the
/// three of request 2026-02.
#[derive(Clone, Copy, Debug, PartialEq, Eq)]
pub enum Instruction {
    Mov64(Operand, Operand),
    Add64(Operand, Operand),
    AddLea64(Operand, Operand, Operand),
    AddCarry64(Operand, Operand),
    Adcx64(Operand, Operand),
    Adox64(Operand, Operand),
    Sub64(Operand, Operand),
    Mul64(Operand),
    /// high destination, low destination, source
    Mulx64(Operand, Operand, Operand),
    IMul64(Operand, Operand),
    Xor64(Operand, Operand),
    And64(Operand, Operand),
    Shr64(Operand, Operand),
    Shl64(Operand, Operand),
    Paddd(Xmm, Xmm),
    Pxor(Xmm, Xmm),
    Pslld(Xmm, u8),
    Psrld(Xmm, u8),
    Pshufd(Xmm, Xmm, u8),
    Pcmpeqd(Xmm, Xmm),
    Pextrq(Operand, Xmm, u8),
    Pinsrd(Xmm, Operand, u8),
    Pinsrq(Xmm, Operand, u8),
    Vpslldq(Xmm, Xmm, u8),
    Popcnt64(Operand, Operand),
    Lzcnt64(Operand, Operand),
    Tzcnt64(Operand, Operand),
}

/// How many instructions there are; their kind bytes are 1 to this number.
pub const INSTRUCTION_KINDS: usize = 27;

/// A destination and a source make an instruction.
pub type OfTwo = fn(Operand, Operand) -> Instruction;

/// The three that count bits, in the order of their kinds.
pub const COUNTS: [OfTwo; 3] = [
    Instruction::Popcnt64,
    Instruction::Lzcnt64,
    Instruction::Tzcnt64,
];

/// All that have a destination and a source, but for the shifts, whose second
/// operand has a limit.
pub const TWOS: [OfTwo; 12] = [
    Instruction::Mov64,
    Instruction::Add64,
    Instruction::AddCarry64,
    Instruction::Adcx64,
    Instruction::Adox64,
    Instruction::Sub64,
    Instruction::IMul64,
    Instruction::Xor64,
    Instruction::And64,
    Instruction::Popcnt64,
    Instruction::Lzcnt64,
    Instruction::Tzcnt64,
];

#[derive(Clone, Copy, Debug, PartialEq, Eq)]
pub enum Relation {
    Eq,
    Ne,
    Le,
    Ge,
    Lt,
    Gt,
}

pub const RELATIONS: [Relation; 6] = [
    Relation::Eq,
    Relation::Ne,
    Relation::Le,
    Relation::Ge,
    Relation::Lt,
    Relation::Gt,
];

#[derive(Clone, Debug, PartialEq, Eq)]
pub struct Ocmp {
    pub place: usize,
    pub relation: Relation,
    pub left: Operand,
    pub right: Operand,
}

#[derive(Clone, Debug, PartialEq, Eq)]
pub enum Node {
    Ins(Instruction),
    Block(Vec<Code>),
    IfElse(Ocmp, Box<Code>, Box<Code>),
    While(Ocmp, Box<Code>),
}

#[derive(Clone, Debug, PartialEq, Eq)]
pub struct Code {
    pub place: usize,
    pub node: Node,
}

impl Code {
    /// A code that has not been written down yet, so its place is not known.
    pub fn unplaced(node: Node) -> Code {
        Code { place: 0, node }
    }
}

impl Ocmp {
    pub fn unplaced(relation: Relation, left: Operand, right: Operand) -> Ocmp {
        Ocmp {
            place: 0,
            relation,
            left,
            right,
        }
    }
}
