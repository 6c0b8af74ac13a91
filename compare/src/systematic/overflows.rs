//! Kernels in which the overflow that Add64 or AddCarry64 leaves goes on to have
//! an effect: Adox64 adds it to a word, and from there it gets to registers,
//! cells, xmm words, choices, rounds and faults. Most end in one way by the base
//! evaluation and in another on the board.

use super::roles::{kinds, BARE};
use super::stage::*;
use crate::build::*;
use crate::job::Job;
use crate::reader::Rule;
use crate::tree::Instruction::*;
use crate::tree::*;
use Relation::{Eq, Ne};

/// The ends of the signed numbers.
const LARGEST: u64 = TOP / 2;
const LEAST: u64 = 1 << 63;

const SUMS: [OfTwo; 2] = [Add64, AddCarry64];

/// What OTHER holds until an overflow is added to it.
const UNREAD: u64 = 1000;

fn read() -> Code {
    ins(Adox64(reg(OTHER), number(0)))
}

/// LEFT and RIGHT are small; TARGET is what the sums are made in.
fn start(code: Code) -> Job {
    let job = bare(code).fuel(9).reg(OTHER, UNREAD);
    job.reg(LEFT, 3).reg(RIGHT, 4).xmm(1, [1, 2, 3, 4])
}

/// A sum that leaves the range above or below, one that stays in it, of one
/// sign and of two; each behind and over either overflow.
fn right_behind() -> Vec<Job> {
    let words = [(LARGEST, 1), (LEAST, TOP), (1, 1), (LARGEST, LEAST)];
    let mut jobs = Vec::new();
    for sum in SUMS {
        for (dst, src) in words {
            for (flags, fill) in [(0, 0), (0, 2048), (2048, 0), (2048, 2048)] {
                let code = block(vec![ins(sum(reg(TARGET), number(src))), read()]);
                jobs.push(start(code).reg(TARGET, dst).flags(flags).fill(fill));
            }
        }
    }
    jobs
}

fn keeping() -> [Instruction; 13] {
    let (to, by) = (reg(RIGHT), reg(LEFT));
    [
        Mov64(to, by),
        AddLea64(to, by, by),
        Adcx64(to, by),
        Mulx64(to, to, by),
        Pxor(1, 2),
        Pslld(1, 1),
        Psrld(1, 1),
        Pshufd(1, 1, 27),
        Pcmpeqd(1, 2),
        Pextrq(to, 1, 1),
        Pinsrd(1, by, 1),
        Pinsrq(1, by, 1),
        Vpslldq(1, 1, 4),
    ]
}

fn filling() -> [Instruction; 9] {
    let (to, by) = (reg(RIGHT), reg(LEFT));
    [
        Sub64(to, by),
        Mul64(by),
        IMul64(to, by),
        And64(to, by),
        Shr64(to, by),
        Shl64(to, by),
        Paddd(1, 2),
        Lzcnt64(to, by),
        Tzcnt64(to, by),
    ]
}

fn clearing() -> [Instruction; 5] {
    let (to, by) = (reg(RIGHT), reg(LEFT));
    [
        Xor64(to, by),
        Popcnt64(to, by),
        Adox64(to, by),
        Add64(to, by),
        AddCarry64(to, by),
    ]
}

/// Code between a sum and the Adox64: an overflow that was set, with nothing in
/// the fill word, and one that was cleared, with overflow there.
fn between(codes: Vec<Code>) -> Vec<Job> {
    let sum = |by| ins(Add64(reg(TARGET), number(by)));
    let both = |code: Code| {
        let set = start(block(vec![sum(1), code.clone(), read()]));
        let cleared = start(block(vec![sum(0), code, read()]));
        [
            set.reg(TARGET, LARGEST).flags(0).fill(0),
            cleared.reg(TARGET, LARGEST).flags(2048).fill(2048),
        ]
    };
    codes.into_iter().flat_map(both).collect()
}

/// What leaves flags alone but for the carry, what sets them to the fill word,
/// and what clears overflow: sums of small numbers do.
fn all_between() -> Vec<Job> {
    let nested = block(vec![nothing(), block(vec![nothing()])]);
    let mut codes = vec![nothing(), nested];
    codes.extend(keeping().map(ins));
    codes.extend(filling().map(ins));
    codes.push(if_else(always(), nothing(), nothing()));
    codes.push(repeat(never(), nothing()));
    codes.extend(clearing().map(ins));
    between(codes)
}

/// Numbers of three words, the lowest first. The carry from below alone takes
/// the highest out of the range, is not there, brings it back, is not there,
/// and goes through all three.
const LONG: [([u64; 3], [u64; 3]); 5] = [
    ([TOP, TOP, LARGEST], [1, 0, 0]),
    ([TOP, TOP, LARGEST], [0, 0, 0]),
    ([1, 0, LEAST], [TOP, TOP, TOP]),
    ([0, 0, LEAST], [TOP, TOP, TOP]),
    ([TOP, TOP, TOP], [1, 0, 0]),
];

/// In registers and in cells; behind the last sum its overflow goes to OTHER,
/// and its carry to RIGHT. Adcx64 takes the carry on as AddCarry64 does.
fn long_sums() -> Vec<Job> {
    let registers = [reg(8), reg(9), reg(10)];
    let cells = [at(CELL), at_reg(NEAR, 8), at_index(NEAR, 2, SMALL, 0)];
    let mut jobs = Vec::new();
    for (a, b) in LONG {
        for to in [registers, cells] {
            for middle in [AddCarry64 as OfTwo, Adcx64] {
                let row = [
                    Add64(to[0], number(b[0])),
                    middle(to[1], number(b[1])),
                    AddCarry64(to[2], number(b[2])),
                    Adox64(reg(OTHER), number(0)),
                    Adcx64(reg(RIGHT), number(0)),
                ];
                let job = start(block(row.map(ins).into())).reg(8, a[0]).reg(9, a[1]);
                let job = job.reg(10, a[2]).reg(NEAR, CELL).reg(SMALL, 8);
                let place = |i: usize| CELL + 8 * i as u64;
                jobs.push((0..3).fold(job, |job, i| job.cell(place(i), 64, a[i])));
            }
        }
    }
    jobs
}

/// On the stage, where carry and overflow are set: TARGET and the second cell
/// have the word.
fn staged(code: Code, word: u64) -> Job {
    let mut job = stage(code).reg(TARGET, word).reg(OTHER, UNREAD);
    job.cells[1].value = word;
    job
}

/// Every kind of destination and source; the sources are 5, 9 and 7. The first
/// word leaves the range with each of them, the second with none.
fn operands() -> Vec<Job> {
    let mut jobs = Vec::new();
    let [_, destinations @ ..] = kinds(Rule::Today, 8);
    for sum in SUMS {
        for dst in destinations {
            for src in kinds(Rule::Today, 0) {
                let code = || block(vec![ins(sum(dst, src)), read()]);
                jobs.extend([LARGEST - 4, 0].map(|word| staged(code(), word)));
            }
        }
    }
    jobs
}

/// Destination and source are one place, or one is found through the other.
fn meetings() -> Vec<Job> {
    let [_, own, cell, near, index] = kinds(Rule::Today, 8);
    let pairs = [
        (own, own),
        (cell, cell),
        (near, cell),
        (reg(NEAR), near),
        (near, reg(NEAR)),
        (reg(INDEX), index),
        (index, reg(BASE)),
    ];
    let mut jobs = Vec::new();
    for (dst, src) in pairs {
        for sum in SUMS {
            let code = || block(vec![ins(sum(dst, src)), read()]);
            jobs.extend([1 << 62, LARGEST, LEAST].map(|word| staged(code(), word)));
        }
    }
    jobs
}

/// The sum leaves the range, or stays in it behind an overflow that was set: the
/// evaluations then read otherwise. Codes go by a word that has it added.
fn shown(place: Operand, word: u64, then: Vec<Code>) -> Vec<Job> {
    let row = |by| [Mov64(place, number(word)), Add64(reg(TARGET), number(by))];
    let code = |by| {
        let mut codes: Vec<Code> = row(by).map(ins).into();
        codes.push(ins(Adox64(place, number(0))));
        codes.extend(then.clone());
        block(codes)
    };
    let job = |code| start(code).reg(TARGET, LARGEST).cell(CELL, 64, 7);
    let set = job(code(1)).flags(0).fill(0);
    vec![set, job(code(0)).flags(2048).fill(2049)]
}

/// A cell, an xmm word, the part that is taken, a round more.
fn effects() -> Vec<Job> {
    let word = reg(RIGHT);
    let one_more = || compare(Eq, word, number(1));
    let told = |n| ins(Mov64(reg(OTHER), number(n)));
    let mut jobs = shown(at(CELL), 20, Vec::new());
    jobs.extend(shown(word, 20, vec![ins(Mov64(at(CELL), word))]));
    jobs.extend(shown(word, 20, vec![ins(Pinsrq(1, word, 1))]));
    jobs.extend(shown(word, 0, vec![if_else(one_more(), told(1), told(2))]));
    let round = ins(Mov64(word, number(5)));
    jobs.extend(shown(word, 0, vec![repeat(one_more(), round), told(3)]));
    jobs.extend(shown(word, 0, vec![repeat(one_more(), nothing())]));
    jobs
}

/// 31, 32, 33 and 36 by the word, 34 and 35 in the part that it chooses.
fn faults_by_it() -> Vec<Job> {
    let (word, there) = (reg(RIGHT), at_reg(RIGHT, 0));
    let one_more = compare(Eq, word, number(1));
    let choice = |bad| if_else(one_more.clone(), ins(bad), nothing());
    let table = [
        (CELL, ins(Mov64(reg(OTHER), there))),
        (CELL, ins(Mov64(there, reg(OTHER)))),
        (CELL, ins(AddCarry64(there, number(1)))),
        (63, ins(Shl64(reg(OTHER), word))),
        (1 << 63, ins(Mov64(at_index(RIGHT, 1, RIGHT, -2), word))),
        (0, ins(Mov64(reg(OTHER), at_reg(RIGHT, -1)))),
        (0, choice(Pslld(1, 32))),
        (0, choice(Vpslldq(1, 1, 5))),
        (CELL, if_else(compare(Ne, there, word), read(), nothing())),
    ];
    let one = |(before, code)| shown(word, before, vec![code, read()]);
    table.into_iter().flat_map(one).collect()
}

/// A sum that does not pass its checks, behind one that does: neither a word nor
/// a flag of it is written.
fn faults_of_sums() -> Vec<Job> {
    let mut pairs: Vec<(Operand, Operand)> = BARE.map(|bad| (reg(TARGET), bad)).into();
    pairs.extend(BARE.map(|bad| (bad, reg(SMALL))));
    pairs.extend([(reg(RSP), reg(SMALL)), (number(LARGEST), number(1))]);
    pairs.extend([(reg(RSP), BARE[0]), (number(1), BARE[4])]);
    let mut jobs = Vec::new();
    for (turn, (dst, src)) in pairs.into_iter().enumerate() {
        let (first, second) = (SUMS[turn / 2 % 2], SUMS[turn % 2]);
        let word = [LARGEST - 4, 0][turn % 2];
        let row = [first(at(4104), number(9)), second(dst, src)];
        let mut codes: Vec<Code> = row.map(ins).into();
        codes.push(read());
        jobs.push(staged(block(codes), word).reg(TARGET, TOP - 2));
    }
    jobs
}

/// Quarters of 2^64 are added up, one in a round: the second one takes the sum
/// out of the signed range. A test sets flags to the fill word.
fn rounds() -> Vec<Job> {
    let sum = |sum: OfTwo| ins(sum(reg(TARGET), number(1 << 62)));
    let less = || ins(Sub64(reg(RIGHT), number(1)));
    let left = || compare(Ne, reg(RIGHT), number(0));
    let until = || compare(Eq, reg(OTHER), number(UNREAD));
    let mut jobs = Vec::new();
    for add in SUMS {
        for fill in [0, 1, 2048, 2049] {
            let counted = repeat(left(), block(vec![sum(add), read(), less()]));
            let searched = repeat(until(), block(vec![sum(add), read()]));
            let last = block(vec![repeat(left(), block(vec![less(), sum(add)])), read()]);
            let all = [counted, searched, last];
            jobs.extend(all.map(|code| start(code).fill(fill)));
        }
    }
    jobs
}

pub fn jobs() -> Vec<Job> {
    let words = [right_behind(), all_between(), long_sums()];
    let places = [operands(), meetings(), effects()];
    let others = [faults_by_it(), faults_of_sums(), rounds()];
    [words.concat(), places.concat(), others.concat()].concat()
}

#[cfg(test)]
#[path = "overflows_tests.rs"]
mod tests;
