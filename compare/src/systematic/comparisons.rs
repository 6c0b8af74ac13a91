//! Every comparison, true and false, in IfElse and in While, and every
//! operand kind on either side of it.

use super::roles::kinds;
use super::stage::*;
use crate::build::*;
use crate::job::Job;
use crate::reader::Rule;
use crate::tree::Instruction::*;
use crate::tree::*;

/// Less by unsigned but greater by signed order; equal; greater by unsigned.
const ORDERS: [(u64, u64); 3] = [((1 << 63) - 1, 1 << 63), (TOP, TOP), (TOP, 0)];

pub fn chosen(condition: Ocmp) -> Code {
    let told = |n| ins(Mov64(reg(OTHER), number(n)));
    if_else(condition, told(1), told(2))
}

/// A loop whose body makes its condition false.
pub fn once(condition: Ocmp) -> Code {
    let (left, right) = match condition.relation {
        Relation::Eq | Relation::Ge | Relation::Gt => (0, 1),
        Relation::Ne => (1, 1),
        Relation::Le | Relation::Lt => (1, 0),
    };
    let set = |to: Operand, n| ins(Mov64(to, number(n)));
    let mut body = vec![ins(Add64(reg(OTHER), number(1)))];
    if !matches!(condition.left, Operand::Const(_)) {
        body.push(set(condition.left, left));
    }
    if !matches!(condition.right, Operand::Const(_)) {
        body.push(set(condition.right, right));
    }
    repeat(condition, block(body))
}

fn orders() -> Vec<Job> {
    let mut jobs = Vec::new();
    for relation in RELATIONS {
        for (left, right) in ORDERS {
            let condition = compare(relation, reg(LEFT), reg(RIGHT));
            for code in [chosen(condition.clone()), once(condition)] {
                jobs.push(stage(code).reg(LEFT, left).reg(RIGHT, right));
            }
        }
    }
    jobs
}

/// Each relation with each kind on each side, in IfElse and While by turns.
fn sides(rule: Rule) -> Vec<Job> {
    let mut jobs = Vec::new();
    for (turn, relation) in RELATIONS.into_iter().enumerate() {
        for (number, kind) in kinds(rule, 0).into_iter().enumerate() {
            for (side, (left, right)) in [(kind, reg(LEFT)), (reg(LEFT), kind)]
                .into_iter()
                .enumerate()
            {
                let condition = compare(relation, left, right);
                let code = match (turn + number + side) % 2 {
                    0 => chosen(condition),
                    _ => once(condition),
                };
                jobs.push(stage(code).reg(LEFT, 7));
            }
        }
    }
    jobs
}

pub fn jobs(rule: Rule) -> Vec<Job> {
    let mut jobs = orders();
    jobs.extend(sides(rule));
    jobs
}
