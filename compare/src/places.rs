//! What stands at a place that an answer can name, and all that has operands.

use crate::tree::{Code, Instruction, Maddr, Node, Ocmp, Operand};
use crate::writer::{instruction_fields, operand_length};

/// What can come next where a run is stopped.
#[derive(Clone, Copy, Debug, PartialEq, Eq, PartialOrd, Ord)]
pub enum Next {
    Instruction,
    /// The comparison of an IfElse.
    Choice,
    /// The comparison of a While.
    Test,
}

pub const NEXTS: [Next; 3] = [Next::Instruction, Next::Choice, Next::Test];

/// The instruction or comparison whose kind byte stands at the place.
pub fn next_at(code: &Code, place: usize) -> Option<Next> {
    let at = |found: usize, next: Next| (found == place).then_some(next);
    match &code.node {
        Node::Ins(_) => at(code.place, Next::Instruction),
        Node::Block(codes) => codes.iter().find_map(|c| next_at(c, place)),
        Node::IfElse(condition, if_true, if_false) => at(condition.place, Next::Choice)
            .or_else(|| next_at(if_true, place))
            .or_else(|| next_at(if_false, place)),
        Node::While(condition, body) => {
            at(condition.place, Next::Test).or_else(|| next_at(body, place))
        }
    }
}

/// The instruction whose kind byte stands at the place.
pub fn instruction_at(code: &Code, place: usize) -> Option<Instruction> {
    match &code.node {
        Node::Ins(ins) => (code.place == place).then_some(*ins),
        Node::Block(codes) => codes.iter().find_map(|c| instruction_at(c, place)),
        Node::IfElse(_, if_true, if_false) => {
            instruction_at(if_true, place).or_else(|| instruction_at(if_false, place))
        }
        Node::While(_, body) => instruction_at(body, place),
    }
}

/// The place of the comparison of the While at a place: behind the kind and a length.
pub fn test_of(place: usize) -> usize {
    place + 5
}

/// How many Whiles stand around the While at the place.
pub fn loops_around(code: &Code, place: usize) -> Option<usize> {
    match &code.node {
        Node::Ins(_) => None,
        Node::Block(codes) => codes.iter().find_map(|c| loops_around(c, place)),
        Node::IfElse(_, if_true, if_false) => {
            loops_around(if_true, place).or_else(|| loops_around(if_false, place))
        }
        Node::While(..) if code.place == place => Some(0),
        Node::While(_, body) => Some(1 + loops_around(body, place)?),
    }
}

/// An instruction or a comparison, as far as its operands go.
pub struct Record {
    pub next: Next,
    pub place: usize,
    /// The kind byte and the body.
    head: usize,
    pub operands: Vec<Operand>,
}

/// All of a code's, in the order of their bytes.
pub fn records(code: &Code) -> Vec<Record> {
    let mut all = Vec::new();
    push_records(code, &mut all);
    all
}

fn push_records(code: &Code, all: &mut Vec<Record>) {
    match &code.node {
        Node::Ins(ins) => {
            let (head, operands) = instruction_fields(ins);
            all.push(Record {
                next: Next::Instruction,
                place: code.place,
                head: head.len(),
                operands,
            });
        }
        Node::Block(codes) => codes.iter().for_each(|c| push_records(c, all)),
        Node::IfElse(condition, if_true, if_false) => {
            all.push(of_comparison(Next::Choice, condition));
            push_records(if_true, all);
            push_records(if_false, all);
        }
        Node::While(condition, body) => {
            all.push(of_comparison(Next::Test, condition));
            push_records(body, all);
        }
    }
}

fn of_comparison(next: Next, condition: &Ocmp) -> Record {
    Record {
        next,
        place: condition.place,
        head: 1,
        operands: vec![condition.left, condition.right],
    }
}

impl Record {
    /// The scale of each MIndex operand, with the place of its kind byte.
    pub fn scales(&self) -> Vec<(usize, i16)> {
        let (mut at, mut found) = (self.place + self.head, Vec::new());
        for operand in &self.operands {
            if let Operand::Mem(Maddr::Index(_, scale, ..)) = operand {
                found.push((at, *scale));
            }
            at += operand_length(operand);
        }
        found
    }
}

#[cfg(test)]
mod tests {
    use super::*;
    use crate::build::{block, if_else, ins, repeat};
    use crate::reader::read;
    use crate::tree::Relation;
    use crate::writer::write;

    /// The MIndex operands of a While's comparison, behind a register, and of Pinsrq
    /// and AddLea64 in it.
    #[test]
    fn places_of_scales() {
        let memory = |scale| Operand::Mem(Maddr::Index(0, scale, 1, 0));
        let condition = Ocmp::unplaced(Relation::Eq, Operand::Reg(0), memory(1));
        let inner = [
            Instruction::Pinsrq(1, memory(2), 0),
            Instruction::AddLea64(memory(4), Operand::Const(5), memory(8)),
        ];
        let code = write(&repeat(condition, block(inner.map(ins).into())));
        let all = records(&read(&code).unwrap());
        let told: Vec<_> = all.iter().map(|r| (r.next, r.place)).collect();
        let (test, instruction) = (Next::Test, Next::Instruction);
        assert_eq!(told, [(test, 5), (instruction, 26), (instruction, 42)]);
        let scales: Vec<(usize, i16)> = all.iter().flat_map(Record::scales).collect();
        assert_eq!(scales, [(8, 1), (29, 2), (43, 4), (65, 8)]);
        assert!(scales.iter().all(|&(at, _)| code[at] == 0x44));
    }

    /// A Block (0) of a While (5), in which an IfElse (15) has an instruction (29) and
    /// a While (32), which has a While (42) in it. The comparisons have five bytes.
    #[test]
    fn whiles_around_whiles() {
        let own = || Ocmp::unplaced(Relation::Eq, Operand::Reg(0), Operand::Reg(0));
        let inmost = repeat(own(), block(Vec::new()));
        let middle = repeat(own(), inmost);
        let step = ins(Instruction::Pxor(0, 1));
        let choice = if_else(own(), step, middle);
        let code = write(&block(vec![repeat(own(), choice)]));
        let tree = read(&code).unwrap();
        let found: Vec<(usize, usize)> = (0..code.len())
            .filter_map(|place| Some((place, loops_around(&tree, place)?)))
            .collect();
        assert_eq!(found, [(5, 0), (32, 1), (42, 2)]);
        for (place, _) in found {
            assert_eq!(next_at(&tree, test_of(place)), Some(Next::Test));
        }
    }

    /// A Block of a Pxor (5), an IfElse (8) with its comparison (17) and two
    /// instructions (22, 25), and a While (28) with its comparison (33) and an
    /// instruction (38).
    #[test]
    fn places_of_a_block() {
        let mut code = vec![0x20, 36, 0, 0, 0, 0x10, 0, 1];
        code.extend([0x21, 3, 0, 0, 0, 3, 0, 0, 0]);
        code.extend([0x30, 0x41, 0, 0x41, 0, 0x10, 0, 1, 0x10, 0, 1]);
        code.extend([0x22, 3, 0, 0, 0, 0x31, 0x41, 0, 0x41, 0, 0x10, 0, 1]);
        let tree = read(&code).unwrap();
        let mut found = Vec::new();
        for place in 0..code.len() {
            let next = next_at(&tree, place);
            let instruction = instruction_at(&tree, place);
            assert_eq!(instruction.is_some(), next == Some(Next::Instruction));
            assert!(matches!(instruction, None | Some(Instruction::Pxor(0, 1))));
            found.extend(next.map(|next| (place, next)));
        }
        let expected = [
            (5, Next::Instruction),
            (17, Next::Choice),
            (22, Next::Instruction),
            (25, Next::Instruction),
            (33, Next::Test),
            (38, Next::Instruction),
        ];
        assert_eq!(found, expected);
    }
}
