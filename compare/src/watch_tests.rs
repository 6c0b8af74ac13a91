//! The watch against the table that was typed by hand: every instruction and
//! comparison, by both evaluations, from everything that can be open, completed
//! and not. Then whole runs, reckoned by hand.

use super::*;
use crate::answer::{Answer, Outcome};
use crate::build::*;
use crate::cells::Cell;
use crate::flags::Flags;
use crate::follow::{Event, Follow, Mode, Settings};
use crate::instructions;
use crate::job::Job;
use crate::run::{answer, answer_bytes};
use crate::source::eval_code;
use crate::state::{Start, State};
use crate::terms::Evaluation::{Base, Board};
use crate::terms::{Evaluation, EVALUATIONS};
use crate::tree::Instruction::*;
use crate::tree::*;
use crate::watch_table::{behind, Open, OPENS};

const PLACE: usize = 21;
const ADDRESS: u64 = 4096;
const NOWHERE: Operand = Operand::Mem(Maddr::Const(5));
const BELOW: Operand = Operand::Mem(Maddr::Reg(1, -9));
const RELATION_KINDS: u8 = 0x30;

/// Rbx and the one cell hold 7, Rax is 2^64-1, other registers are 1.
fn state(word: u64, [carry_open, overflow_open]: Open) -> State {
    let mut regs = [1; 16];
    (regs[0], regs[1]) = (u64::MAX, 7);
    let start = Start {
        flags: 0,
        regs,
        xmms: [[1, 2, 3, 4]; 16],
    };
    let cell = Cell {
        address: ADDRESS,
        tag: 64,
        value: 7,
    };
    let mut state = State::new(&start, &[cell]);
    state.flags = Flags {
        word,
        carry_open,
        overflow_open,
    };
    state
}

/// All instructions, with a register and with the cell as destination and source.
fn all_instructions() -> Vec<Instruction> {
    let (a, b, cell) = (reg(0), reg(1), at(ADDRESS));
    let mut all: Vec<Instruction> = TWOS.map(|of_two| of_two(a, b)).into();
    all.extend(TWOS.map(|of_two| of_two(cell, number(0))));
    all.extend(TWOS.map(|of_two| of_two(a, cell)));
    all.extend([AddLea64(a, b, b), Mul64(b), Mulx64(a, b, b)]);
    all.extend([Mul64(cell), Mulx64(cell, cell, b)]);
    all.extend([Shr64(a, b), Shl64(a, b), Shl64(cell, number(0))]);
    all.extend([Paddd(1, 2), Pxor(1, 2), Pslld(1, 31), Psrld(1, 0)]);
    all.extend([Pshufd(1, 2, 27), Pcmpeqd(1, 2), Vpslldq(1, 2, 4)]);
    all.extend([Pextrq(a, 1, 1), Pinsrd(1, b, 1), Pinsrq(1, cell, 1)]);
    all
}

/// All instructions that can fail, each by everything that can fail in it.
fn failing() -> Vec<Instruction> {
    let (a, b) = (reg(0), reg(1));
    let bad = [NOWHERE, BELOW];
    let mut all = Vec::new();
    for dst in [NOWHERE, BELOW, reg(RSP), number(1)] {
        all.extend(TWOS.map(|of_two| of_two(dst, b)));
        all.extend([AddLea64(dst, b, b), Mulx64(dst, a, b), Mulx64(a, dst, b)]);
        all.extend([Shr64(dst, b), Shl64(dst, b), Pextrq(dst, 1, 1)]);
    }
    for src in bad {
        all.extend(TWOS.map(|of_two| of_two(a, src)));
        all.extend([AddLea64(a, src, b), AddLea64(a, b, src), Mulx64(a, a, src)]);
        all.extend([Mul64(src), Shr64(a, src), Shl64(a, src)]);
        all.extend([Pinsrd(1, src, 1), Pinsrq(1, src, 1)]);
    }
    all.extend([Shr64(a, number(64)), Shl64(a, number(64))]);
    all.extend([Pslld(1, 32), Psrld(1, 32), Vpslldq(1, 2, 5)]);
    all
}

fn placed(node: Node) -> Code {
    Code { place: PLACE, node }
}

/// A choice and a loop by the comparison.
fn compared(relation: Relation, left: Operand, right: Operand) -> [Code; 2] {
    let condition = Ocmp::unplaced(relation, left, right);
    let nothing = || Box::new(block(Vec::new()));
    let chosen = Node::IfElse(condition.clone(), nothing(), nothing());
    [chosen, Node::While(condition, nothing())].map(placed)
}

/// What is open behind a code, and the first read. Behind a failed check or a
/// loop without fuel it is what was open just before; the source's run goes on
/// there unless the mode forbids it.
fn watched(code: &Code, s: &State, fill: u64, by: Evaluation, mode: Mode) -> (Open, Option<usize>) {
    let settings = Settings {
        mode,
        ..Settings::new(fill, by.unlimited())
    };
    let mut f = Follow::new(settings);
    let end = eval_code(code, 1, s.clone(), &mut f).ok();
    let flags = match f.log.before_first {
        Some(before) => before.flags,
        None => end.expect("it completes").flags,
    };
    ([flags.carry_open, flags.overflow_open], f.reads.first)
}

const WORDS: [u64; 4] = [0, 1, 2048, u64::MAX];

fn everywhere(mut check: impl FnMut(&State, u64, Evaluation, Open)) {
    for evaluation in EVALUATIONS {
        for open in OPENS {
            for word in WORDS {
                for fill in WORDS {
                    check(&state(word, open), fill, evaluation, open);
                }
            }
        }
    }
}

#[test]
fn completed_instructions() {
    let mut met = [0; INSTRUCTION_KINDS];
    for ins in all_instructions() {
        let kind = instructions::number(&ins);
        met[kind - 1] += 1;
        everywhere(|s, fill, evaluation, open| {
            let code = placed(Node::Ins(ins));
            let expected = behind(kind as u8, evaluation, open);
            let mark = expected.marks.then_some(PLACE);
            let seen = watched(&code, s, fill, evaluation, Mode::RunsOn);
            assert_eq!(seen, (expected.open, mark), "{ins:?}, {evaluation:?}");
        });
    }
    assert!(met.iter().all(|count| *count > 0));
}

#[test]
fn instructions_that_do_not_complete() {
    for ins in failing() {
        everywhere(|s, fill, evaluation, open| {
            let code = placed(Node::Ins(ins));
            for mode in [Mode::RunsOn, Mode::StopsAtFirst] {
                let seen = watched(&code, s, fill, evaluation, mode);
                assert_eq!(seen, (open, None), "{ins:?}, {evaluation:?}");
            }
        });
    }
}

/// A comparison of 7 with 7, with more and with less; the loops that are true end
/// out of fuel, behind one comparison that was made.
#[test]
fn comparisons() {
    for (turn, relation) in RELATIONS.into_iter().enumerate() {
        let kind = RELATION_KINDS + turn as u8;
        for left in [6, 7, 8] {
            for code in compared(relation, number(left), reg(1)) {
                everywhere(|s, fill, evaluation, open| {
                    let expected = behind(kind, evaluation, open);
                    assert!(!expected.marks);
                    let seen = watched(&code, s, fill, evaluation, Mode::RunsOn);
                    assert_eq!(seen, (expected.open, None), "{relation:?}");
                });
            }
        }
        for (left, right) in [(NOWHERE, reg(1)), (reg(1), NOWHERE), (BELOW, BELOW)] {
            for code in compared(relation, left, right) {
                everywhere(|s, fill, evaluation, open| {
                    for mode in [Mode::RunsOn, Mode::StopsAtFirst] {
                        let seen = watched(&code, s, fill, evaluation, mode);
                        assert_eq!(seen, (open, None), "{relation:?}");
                    }
                });
            }
        }
    }
}

fn marked(mark: usize, [carry_open, overflow_open]: Open) -> Watch {
    Watch {
        mark: Some(mark),
        carry_open,
        overflow_open,
    }
}

fn unmarked([carry_open, overflow_open]: Open) -> Watch {
    Watch {
        mark: None,
        carry_open,
        overflow_open,
    }
}

const BOTH: Open = [true, true];
const NONE: Open = [false, false];
const CARRY: Open = [true, false];
const OVERFLOW: Open = [false, true];

fn row(instructions: &[Instruction]) -> Job {
    of_code(block(instructions.iter().copied().map(ins).collect()))
}

fn watch(job: &Job, evaluation: Evaluation, limit: u64) -> Watch {
    answer(job, evaluation.limited(limit)).watch
}

/// Paddd takes 3 bytes, so what comes next stands at 8, and then at 13 and 18.
#[test]
fn the_first_mark_stays() {
    let (a, b) = (reg(0), reg(1));
    let job = row(&[Paddd(1, 2), Adcx64(a, b), Adox64(a, b), Sub64(a, b)]);
    for evaluation in EVALUATIONS {
        let by_limit = [
            unmarked(NONE),
            unmarked(BOTH),
            marked(8, OVERFLOW),
            marked(8, NONE),
            marked(8, BOTH),
        ];
        for (limit, expected) in by_limit.into_iter().enumerate() {
            assert_eq!(watch(&job, evaluation, limit as u64), expected);
        }
    }
    let job = row(&[Paddd(1, 2), Adox64(a, b), Adcx64(a, b)]);
    assert_eq!(watch(&job, Base, 2), marked(8, CARRY));
    assert_eq!(watch(&job, Board, 9), marked(8, NONE));
}

/// A sum closes overflow on the board alone. It is at 8, Adox64 at 13.
#[test]
fn evaluations() {
    let (a, b) = (reg(0), reg(1));
    let job = row(&[Paddd(1, 2), Add64(a, b), Adox64(a, b)]);
    assert_eq!(watch(&job, Base, 2), unmarked(OVERFLOW));
    assert_eq!(watch(&job, Base, 3), marked(13, NONE));
    assert_eq!(watch(&job, Board, 2), unmarked(NONE));
    assert_eq!(watch(&job, Board, 3), unmarked(NONE));
    let job = row(&[Paddd(1, 2), AddCarry64(a, b), Adox64(a, b)]);
    assert_eq!(watch(&job, Base, 2), marked(8, OVERFLOW));
    assert_eq!(watch(&job, Board, 2), marked(8, NONE));
}

/// What the start has is not open, also where it is what the fill word has.
#[test]
fn the_start_is_not_open() {
    for reader in [AddCarry64 as OfTwo, Adcx64, Adox64] {
        let job = plain(reader(reg(0), reg(1))).flags(2049).fill(2049);
        for evaluation in EVALUATIONS {
            assert_eq!(watch(&job, evaluation, 1), unmarked(NONE));
        }
    }
}

/// The source runs on behind the fault at 8, opens, closes and reads.
#[test]
fn what_comes_behind_a_bad_event_is_not_watched() {
    let (a, b) = (reg(0), reg(1));
    let behind = [Sub64(a, b), Adcx64(a, b), Xor64(a, b)];
    let mut codes = vec![Paddd(1, 2), Adcx64(NOWHERE, b)];
    codes.extend(behind);
    for evaluation in EVALUATIONS {
        let outcome = answer(&row(&codes), evaluation.unlimited());
        assert_eq!(outcome.answer, Answer::Fault(32, 8));
        assert_eq!(outcome.watch, unmarked(BOTH));
    }
    codes[0] = Pxor(1, 2);
    codes[1] = Sub64(number(1), b);
    let outcome = answer(&row(&codes), Base.unlimited());
    assert_eq!(outcome.watch, unmarked(NONE));
    let stopped = answer(&row(&behind), Base.limited(1));
    assert_eq!(stopped.answer, Answer::Stopped(37, 10));
    assert_eq!(stopped.watch, unmarked(BOTH));
}

/// The test is at 5 and opens; Adcx64 at 10 reads in the first round. Out of fuel
/// ahead of it nothing was done.
#[test]
fn loops() {
    let own = Ocmp::unplaced(Relation::Eq, reg(0), reg(0));
    let job = of_code(repeat(own, ins(Adcx64(reg(1), reg(1)))));
    assert_eq!(watch(&job, Base, 9), unmarked(NONE));
    let job = job.fuel(2);
    assert_eq!(watch(&job, Base, 1), unmarked(BOTH));
    assert_eq!(watch(&job, Base, 2), marked(10, OVERFLOW));
    assert_eq!(watch(&job, Base, 3), marked(10, BOTH));
    let spent = answer(&job, Board.unlimited());
    assert_eq!(spent.answer, Answer::Spent(0));
    assert_eq!(spent.watch, marked(10, OVERFLOW));
}

#[test]
fn refusals() {
    let none = Watch::default();
    assert_eq!(none, unmarked(NONE));
    let mut job = row(&[Sub64(reg(0), reg(1)), Adcx64(reg(0), reg(1))]);
    job.code.pop();
    let Outcome { answer, watch, .. } = answer(&job, Base.unlimited());
    assert_eq!((answer, watch), (Answer::Refused(6, 0), none));
    assert_eq!(answer_bytes(&[]).watch, none);
}

#[test]
fn told() {
    let told = unmarked(CARRY).to_string();
    assert_eq!(told, "unmarked, carry open, overflow closed");
    let told = marked(0, OVERFLOW).to_string();
    assert_eq!(told, "marked at 0, carry closed, overflow open");
}

/// An instruction that failed has left nothing for the next one to complete.
#[test]
fn a_read_belongs_to_its_instruction() {
    let mut reads = Reads::default();
    reads.reads_open(3);
    reads.comes_next();
    reads.completes();
    assert_eq!(reads, Reads::default());
    for place in [5, 5, 9] {
        reads.comes_next();
        reads.reads_open(place);
        reads.completes();
    }
    assert_eq!((reads.first, reads.last), (Some(5), Some(9)));
    let mut f = Follow::new(Settings::new(0, Base.unlimited()));
    f.log.note(Event::Starved(1), &state(0, NONE));
    f.reads.reads_open(3);
    assert!(f.is_checked().is_ok());
    assert_eq!(f.reads.first, None);
}
