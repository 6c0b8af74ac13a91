//! Addresses at and beyond the ends of the 64-bit range, in every role, and
//! which check comes first where operands have no cell or are out of the range.

use super::comparisons::{chosen, once};
use super::faults::places;
use super::roles::{shapes, with, Role};
use super::stage::*;
use super::wild_forms::{Form, Forms};
use crate::build::*;
use crate::job::Job;
use crate::reader::Rule;
use crate::tree::Instruction::*;
use crate::tree::*;

/// 64-bit cells at both ends, where an address modulo 2^64 would find one. Both
/// will do as amounts of a shift.
fn ends(code: Code) -> Job {
    let job = bare(code).fuel(3).reg(SMALL, 9);
    job.cell(0, 64, 3).cell(TOP - 7, 64, 5)
}

impl Form {
    fn met(self, code: Code) -> Job {
        ends(code).reg(BASE, self.base).reg(INDEX, self.index)
    }
}

/// Each role of each instruction, with the forms by turns.
fn in_roles(all: &Forms) -> Vec<Job> {
    let mut jobs = Vec::new();
    let mut turn = 0;
    for shape in shapes() {
        for position in 0..shape.roles.len() {
            for forms in [&all.below[..], &all.above, &all.last] {
                let form = forms[turn % forms.len()];
                jobs.push(form.met(with(&shape, position, form.operand)));
            }
            turn += 1;
        }
    }
    jobs
}

/// -1, 2^64 and 2^64-1, each by one register and by an index.
fn both_ends(all: &Forms) -> [Form; 6] {
    let [low, high, last] = [&all.below[..], &all.above, &all.last];
    [low[0], low[2], high[0], high[2], last[0], last[2]]
}

/// Each of them in each role of each instruction.
fn ends_in_roles(all: &Forms) -> Vec<Job> {
    let mut jobs = Vec::new();
    for shape in shapes() {
        for position in 0..shape.roles.len() {
            let job = |form: Form| form.met(with(&shape, position, form.operand));
            jobs.extend(both_ends(all).map(job));
        }
    }
    jobs
}

/// And on each side of a comparison in each structure, with the relations by
/// turns; then 0 and 2^64-8 there, by one register and by an index.
fn ends_in_comparisons(all: &Forms) -> Vec<Job> {
    let found = all.home.into_iter().take(4);
    let forms: Vec<Form> = both_ends(all).into_iter().chain(found).collect();
    let mut jobs = Vec::new();
    for turn in 0..4 {
        for (i, form) in forms.iter().enumerate() {
            let (relation, other) = (RELATIONS[(i + turn) % 6], reg(SMALL));
            let condition = match turn % 2 {
                0 => compare(relation, form.operand, other),
                _ => compare(relation, other, form.operand),
            };
            jobs.push(form.met(tested(turn / 2, condition)));
        }
    }
    jobs
}

/// Either side of a comparison in either structure, by turns.
fn in_comparisons(all: &Forms) -> Vec<Job> {
    let last = all.last.into_iter().take(2);
    let forms = all.below.into_iter().chain(all.above).chain(last);
    let compared = |(turn, form): (usize, Form)| {
        let (relation, other) = (RELATIONS[turn % 6], reg(SMALL));
        let condition = match turn % 2 {
            0 => compare(relation, form.operand, other),
            _ => compare(relation, other, form.operand),
        };
        form.met(tested(turn / 2, condition))
    };
    forms.enumerate().map(compared).collect()
}

fn tested(turn: usize, condition: Ocmp) -> Code {
    match turn % 2 {
        0 => chosen(condition),
        _ => once(condition),
    }
}

/// The cell is found: in all sources and a comparison, then in all destinations.
fn at_home(all: &Forms) -> Vec<Job> {
    let in_all = |role: Role, operand: Operand| {
        let mut codes = Vec::new();
        for shape in shapes() {
            let positions = (0..shape.roles.len()).filter(|&i| shape.roles[i] == role);
            codes.extend(positions.map(|i| with(&shape, i, operand)));
        }
        codes
    };
    let both = |form: Form| {
        let mut sources = in_all(Role::Source, form.operand);
        sources.push(chosen(compare(Relation::Eq, form.operand, number(3))));
        let destinations = in_all(Role::Destination, form.operand);
        [sources, destinations].map(|codes| form.met(block(codes)))
    };
    all.home.into_iter().flat_map(both).collect()
}

/// A cell, no cell, and -8, which modulo 2^64 is the other cell.
const LOW_END: [Operand; 3] = [
    Operand::Mem(Maddr::Const(0)),
    Operand::Mem(Maddr::Const(1)),
    Operand::Mem(Maddr::Reg(BASE, -8)),
];

/// The same at the other end, with 2^64 for -8. The one without a cell is 2^64-1,
/// which the offset brings back from beyond the range.
const HIGH_END: [Operand; 3] = [
    Operand::Mem(Maddr::Reg(INDEX, 0)),
    Operand::Mem(Maddr::Index(INDEX, 1, SMALL, -2)),
    Operand::Mem(Maddr::Reg(INDEX, 8)),
];

/// What can be no destination.
const NO_PLACE: [Operand; 2] = [Operand::Reg(RSP), Operand::Const(1)];

fn at_both_ends(code: Code) -> Job {
    ends(code).reg(INDEX, TOP - 7)
}

fn pairs(first: &[Operand], second: &[Operand]) -> Vec<(Operand, Operand)> {
    let with_all = |&a| second.iter().map(move |&b| (a, b));
    first.iter().flat_map(with_all).collect()
}

/// The two operands of a comparison; the ends change sides by turns.
fn compared_pairs() -> Vec<Code> {
    let mut codes = Vec::new();
    for (turn, relation) in RELATIONS.into_iter().enumerate() {
        let both = match turn % 2 {
            0 => pairs(&LOW_END, &HIGH_END),
            _ => pairs(&HIGH_END, &LOW_END),
        };
        for (i, (left, right)) in both.into_iter().enumerate() {
            codes.push(tested(turn / 2 + i, compare(relation, left, right)));
        }
    }
    codes
}

/// Source and destination, the two sources of AddLea64, amount and destination.
fn instruction_pairs() -> Vec<Code> {
    let destinations = [&LOW_END[..], &NO_PLACE].concat();
    let mut all = Vec::new();
    for (i, (dst, src)) in pairs(&destinations, &HIGH_END).into_iter().enumerate() {
        all.extend([Mov64(dst, src), TWOS[1 + i % 11](dst, src)]);
    }
    for (first, second) in pairs(&LOW_END, &HIGH_END) {
        all.push(AddLea64(reg(TARGET), first, second));
    }
    let amounts = [&HIGH_END[..], &[number(64)]].concat();
    let shifts: [OfTwo; 2] = [Shr64, Shl64];
    for (i, (amt, dst)) in pairs(&amounts, &destinations).into_iter().enumerate() {
        all.push(shifts[i % 2](dst, amt));
    }
    all.into_iter().map(ins).collect()
}

/// Low and high destination, and a source ahead of both.
fn product_pairs() -> Vec<Code> {
    let [_, absent, below] = LOW_END;
    let [_, _, above] = HIGH_END;
    let by = reg(SMALL);
    let pairs = pairs(&LOW_END, &HIGH_END).into_iter();
    let mut all: Vec<Instruction> = pairs.map(|(low, high)| Mulx64(high, low, by)).collect();
    for none in NO_PLACE {
        all.extend([Mulx64(above, none, by), Mulx64(none, below, by)]);
    }
    all.extend([Mulx64(above, below, absent), Mulx64(absent, absent, above)]);
    all.into_iter().map(ins).collect()
}

/// The low half goes to a register of the high destination's address. It is
/// Rdx, so the first number is what BASE holds before, the second what after.
fn products_through_low(rule: Rule) -> Vec<Job> {
    let (up, down) = (at_reg(BASE, 8), at_reg(BASE, -8));
    let sum = at_index(INDEX, 1, BASE, 0);
    let (scaled, out, back) = match rule {
        Rule::Today => (at_index(INDEX, 8, BASE, 4), 1, 0),
        Rule::LastYear => (at_index(INDEX, -1, BASE, 8), 0, TOP),
    };
    let twice = at_index(BASE, 1, BASE, 0);
    let all = [
        (up, TOP - 15, TOP - 7),
        (up, TOP - 7, TOP - 15),
        (up, TOP, 1),
        (up, 1, TOP),
        (up, TOP, TOP - 1),
        (down, 8, 0),
        (down, 0, 8),
        (sum, 0, 8),
        (sum, 8, 0),
        (scaled, out, back),
        (scaled, back, out),
        (twice, 0, 1 << 63),
    ];
    let job = |(high, before, after)| {
        let code = ins(Mulx64(high, reg(BASE), number(1)));
        at_both_ends(code).reg(BASE, before).reg(RDX, after)
    };
    all.map(job).into()
}

/// At every kind of place, in a loop's second test, behind a test of fuel, and
/// in a part that is not taken.
fn elsewhere() -> Vec<Job> {
    let [_, _, above] = HIGH_END;
    let bad = ins(Mov64(reg(TARGET), above));
    let mut codes = places(bad.clone());
    let first_in = at_index(INDEX, 1, BASE, 0);
    for (left, right) in [(first_in, number(9)), (number(9), first_in)] {
        let then_out = ins(Mov64(reg(BASE), number(8)));
        codes.push(repeat(compare(Relation::Ne, left, right), then_out));
    }
    let own = compare(Relation::Eq, reg(SMALL), reg(SMALL));
    codes.push(if_else(own, block(Vec::new()), bad));
    let mut jobs: Vec<Job> = codes.into_iter().map(at_both_ends).collect();
    let condition = compare(Relation::Eq, above, reg(SMALL));
    jobs.push(at_both_ends(once(condition)).fuel(0));
    jobs.into_iter().map(|job| job.reg(LEFT, 2)).collect()
}

pub fn jobs(rule: Rule) -> Vec<Job> {
    let all = Forms::by(rule);
    let mut jobs = in_roles(&all);
    jobs.extend(in_comparisons(&all));
    jobs.extend(at_home(&all));
    let codes = [compared_pairs(), instruction_pairs(), product_pairs()];
    jobs.extend(codes.concat().into_iter().map(at_both_ends));
    jobs.extend(products_through_low(rule));
    jobs.extend(elsewhere());
    jobs.extend(ends_in_roles(&all));
    jobs.extend(ends_in_comparisons(&all));
    jobs
}

#[cfg(test)]
#[path = "wild_tests.rs"]
mod tests;
