//! One code that holds a record of every kind, and every byte of it changed,
//! cut off, taken out or preceded by another in turn.

use crate::cells::Cell;
use crate::job::Job;
use crate::reader::Rule;
use crate::rng::Rng;
use crate::state::Start;
use crate::tree::Instruction::*;
use crate::tree::*;
use crate::writer::write;

pub fn job(rule: Rule, rng: &mut Rng, index: u64) -> Job {
    // Families 30 and 31 of every 40 come here.
    let turn = (index / 40 * 2 + index % 2) as usize;
    let mut code = write(&whole(rule));
    let at = turn / 4 % (code.len() + 1);
    let byte = rng.edge_byte();
    match turn % 4 {
        0 if at < code.len() => code[at] = byte,
        1 => code.truncate(at),
        2 => code.insert(at, byte),
        3 if at < code.len() => drop(code.remove(at)),
        _ => {}
    }
    let cell = |address, tag, value| Cell {
        address,
        tag,
        value,
    };
    Job {
        fuel: rng.pick(&[0, 3, 4, 5, 9]),
        fill: rng.flags_word(),
        start: start(rng),
        cells: vec![cell(4096, 64, 3), cell(4104, 32, 1), cell(4108, 64, 9)],
        code,
    }
}

fn start(rng: &mut Rng) -> Start {
    let mut regs = [0; 16].map(|_: u64| rng.edge_word());
    regs[1] = 4096;
    regs[2] = 2;
    Start {
        flags: rng.flags_word(),
        regs,
        xmms: [[0; 4]; 16].map(|q| q.map(|_: u32| rng.edge_half())),
    }
}

fn ins(instruction: Instruction) -> Code {
    Code::unplaced(Node::Ins(instruction))
}

const A: Operand = Operand::Reg(8);
const B: Operand = Operand::Reg(9);
const ONE: Operand = Operand::Const(1);
const FIRST: Operand = Operand::Mem(Maddr::Const(4096));
const LAST: Operand = Operand::Mem(Maddr::Reg(1, 12));

/// Where `LAST` is, through an index.
fn again(rule: Rule) -> Operand {
    Operand::Mem(match rule {
        Rule::Today => Maddr::Index(1, 2, 2, 8),
        Rule::LastYear => Maddr::Index(1, -2, 2, 16),
    })
}

fn whole(rule: Rule) -> Code {
    let again = again(rule);
    let mut codes = general(again);
    codes.extend(of_xmm());
    codes.extend(counts(again));
    for relation in RELATIONS {
        let condition = Ocmp::unplaced(relation, B, again);
        let (yes, no) = (ins(Paddd(0, 1)), Code::unplaced(Node::Block(Vec::new())));
        let node = Node::IfElse(condition, Box::new(yes), Box::new(no));
        codes.push(Code::unplaced(node));
    }
    codes.push(ins(Mov64(FIRST, Operand::Const(3))));
    let down = Code::unplaced(Node::Block(vec![ins(Sub64(FIRST, ONE))]));
    let condition = Ocmp::unplaced(Relation::Ne, FIRST, Operand::Const(0));
    codes.push(Code::unplaced(Node::While(condition, Box::new(down))));
    Code::unplaced(Node::Block(codes))
}

fn general(again: Operand) -> Vec<Code> {
    let list = [
        Mov64(A, LAST),
        Add64(B, ONE),
        AddLea64(A, B, again),
        AddCarry64(LAST, A),
        Adcx64(A, B),
        Adox64(B, FIRST),
        Sub64(A, ONE),
        Mul64(again),
        Mulx64(A, B, LAST),
        IMul64(A, B),
        Xor64(B, A),
        And64(LAST, B),
        Shr64(A, Operand::Const(63)),
        Shl64(B, Operand::Reg(2)),
    ];
    list.map(ins).into()
}

fn of_xmm() -> Vec<Code> {
    let list = [
        Paddd(0, 1),
        Pxor(1, 2),
        Pslld(2, 31),
        Psrld(3, 1),
        Pshufd(4, 0, 27),
        Pcmpeqd(5, 4),
        Pextrq(A, 6, 1),
        Pinsrd(7, B, 5),
        Pinsrq(8, FIRST, 3),
        Vpslldq(9, 10, 4),
    ];
    list.map(ins).into()
}

fn counts(again: Operand) -> Vec<Code> {
    let list = [Popcnt64(A, B), Lzcnt64(LAST, A), Tzcnt64(B, again)];
    list.map(ins).into()
}
