//! The examples of document 01 against this evaluator. The expected values
//! are typed from there, P11's fault from request 2026-03, the job's one step
//! from request 2026-04, P2's flags on the board from request 2026-06, P14's least
//! fuel from request 2026-09; the steps of P1 to P14 are reckoned by hand. Start
//! values that are left open are 0.

use crate::answer::render;
use crate::build::*;
use crate::cells;
use crate::job::{parse, Job};
use crate::least::{least_fuel, Report};
use crate::reader::{self, Trouble};
use crate::run::{answer, answer_bytes};
use crate::terms::Evaluation::{self, Base, Board};
use crate::terms::EVALUATIONS;
use crate::tree::Instruction::*;
use crate::tree::*;

const TOP: u64 = u64::MAX;
const A: Operand = Operand::Reg(RAX);

/// The step limit of P1 to P14.
const LIMIT: u64 = 100;

/// Runs all the examples; hands back how many there are.
pub fn all() -> Result<usize, String> {
    let mut count = 0;
    let by_base = kernels().into_iter().chain(more_kernels());
    for example in by_base {
        kernel_holds(Base, example)?;
        count += 1;
    }
    for example in kernels_on_the_board() {
        kernel_holds(Board, example)?;
        count += 1;
    }
    for (cap, report, text) in least_fuels() {
        for evaluation in EVALUATIONS {
            least_fuel_holds(evaluation, cap, report, text)?;
            count += 1;
        }
    }
    for (name, holds) in byte_examples().into_iter().chain(cell_examples()) {
        if !holds {
            return Err(format!("{name} does not hold"));
        }
        count += 1;
    }
    job_example()?;
    Ok(count + 1)
}

/// Name, job, first line, steps, and what is printed behind them.
type Example = (&'static str, Job, &'static str, u64, &'static str);

fn kernel_holds(evaluation: Evaluation, example: Example) -> Result<(), String> {
    let (name, job, first, steps, rest) = example;
    let text = render(&answer(&job, evaluation.limited(LIMIT)));
    let expected = format!("{first}\nsteps {steps}\n{rest}");
    match text == expected {
        true => Ok(()),
        false => Err(format!("{name}: expected\n{expected}but got\n{text}")),
    }
}

/// P14 up to a cap: what is reported, and the text of the run that goes with it.
fn least_fuels() -> [(u32, Report, &'static str); 3] {
    let done = "done\nsteps 7\nflags 0\n";
    let spent = "spent at 0\nsteps 6\nflags 0\n";
    [
        (3, Report::CapSpent(61), spent),
        (4, Report::Fuel(4), done),
        (u32::MAX, Report::Fuel(4), done),
    ]
}

fn least_fuel_holds(
    evaluation: Evaluation,
    cap: u32,
    report: Report,
    text: &str,
) -> Result<(), String> {
    let least = least_fuel(&p14(), cap, evaluation.limited(LIMIT));
    match least.report == report && render(&least.outcome) == text {
        true => Ok(()),
        false => Err(format!("P14 up to {cap}: {}", least.told())),
    }
}

/// Rax, from 3, down to 0.
fn p14() -> Job {
    let differs = Ocmp::unplaced(Relation::Ne, A, number(0));
    let less = Box::new(Code::unplaced(Node::Ins(Sub64(A, number(1)))));
    of_code(Code::unplaced(Node::While(differs, less))).reg(RAX, 3)
}

fn p2() -> Job {
    plain(Add64(A, number(1))).reg(RAX, 1).flags(2048)
}

/// The old overflow is not kept.
fn kernels_on_the_board() -> Vec<Example> {
    vec![("P2 on the board", p2(), "done", 1, "flags 0\nRax 2\n")]
}

fn kernels() -> Vec<Example> {
    let p1 = plain(Add64(A, number(1))).reg(RAX, TOP);
    let p3 = plain(Sub64(A, number(1))).fill(9);
    let p4 = plain(Mulx64(A, A, number(2))).reg(RDX, 1 << 63);
    let p5 = plain(Xor64(A, A)).reg(RAX, 77).fill(TOP);
    let p6 = |by| plain(Shl64(A, number(by))).reg(RAX, 1);
    let p7 = |by| plain(Pslld(0, by)).xmm(0, [1, 0, 0, 0]);
    let p8 = |by| plain(Vpslldq(0, 1, by)).xmm(1, [1, 2, 3, 4]);
    let p9 = plain(Pshufd(0, 0, 27)).xmm(0, [10, 11, 12, 13]);
    let p4_rest = "flags 0\nRax 1\nRdx 9223372036854775808\n";
    let p6_rest = "flags 0\nRax 9223372036854775808\n";
    let p7_rest = "flags 0\nxmm 0 2147483648 0 0 0\n";
    let p7_start = "flags 0\nxmm 0 1 0 0 0\n";
    let p8_rest = "flags 0\nxmm 0 0 1 2 3\nxmm 1 1 2 3 4\n";
    let p8_start = "flags 0\nxmm 1 1 2 3 4\n";
    vec![
        ("P1", p1, "done", 1, "flags 1\n"),
        ("P2", p2(), "done", 1, "flags 2048\nRax 2\n"),
        ("P3", p3, "done", 1, "flags 9\nRax 18446744073709551615\n"),
        ("P4", p4, "done", 1, p4_rest),
        ("P5", p5, "done", 1, "flags 18446744073709549566\n"),
        ("P6 63", p6(63), "done", 1, p6_rest),
        ("P6 64", p6(64), "fault 33 at 0", 0, "flags 0\nRax 1\n"),
        ("P7 31", p7(31), "done", 1, p7_rest),
        ("P7 32", p7(32), "fault 34 at 0", 0, p7_start),
        ("P8 4", p8(4), "done", 1, p8_rest),
        ("P8 5", p8(5), "fault 35 at 0", 0, p8_start),
        ("P9", p9, "done", 1, "flags 0\nxmm 0 13 12 11 10\n"),
    ]
}

fn more_kernels() -> Vec<Example> {
    let never = Ocmp::unplaced(Relation::Ne, A, A);
    let nothing = Box::new(Code::unplaced(Node::Block(Vec::new())));
    let p10 = of_code(Code::unplaced(Node::While(never, nothing)));
    let beyond = Operand::Mem(Maddr::Reg(RAX, 1));
    let p11 = plain(Mov64(Operand::Reg(1), beyond));
    let p11 = p11.reg(RAX, TOP).cell(0, 64, 7);
    let p12 = plain(Mov64(Operand::Reg(RSP), number(1)));
    let p13 = plain(Pextrq(A, 0, 1)).xmm(0, [1, 2, 3, 4]);
    let p13d = plain(Pinsrd(0, number(9), 5)).xmm(0, [1, 2, 3, 4]);
    let p11_rest = "flags 0\nRax 18446744073709551615\ncell 0 64 7\n";
    let p13_rest = "flags 0\nRax 17179869187\nxmm 0 1 2 3 4\n";
    let p13d_rest = "flags 0\nxmm 0 1 9 3 4\n";
    // P10: the one comparison. P14: three rounds of two, then the last comparison.
    vec![
        ("P10 0", p10.clone().fuel(0), "spent at 0", 0, "flags 0\n"),
        ("P10 1", p10.fuel(1), "done", 1, "flags 0\n"),
        ("P11", p11, "fault 36 at 0", 0, p11_rest),
        ("P12", p12, "fault 32 at 0", 0, "flags 0\n"),
        ("P13 Pextrq", p13, "done", 1, p13_rest),
        ("P13 Pinsrd", p13d, "done", 1, p13d_rest),
        ("P14 4", p14().fuel(4), "done", 7, "flags 0\n"),
        ("P14 3", p14().fuel(3), "spent at 0", 6, "flags 0\n"),
    ]
}

fn byte_examples() -> Vec<(&'static str, bool)> {
    let bytes = [0x02, 0x41, 0, 0x40, 1, 0, 0, 0, 0, 0, 0, 0];
    let add = Code::unplaced(Node::Ins(Add64(A, number(1))));
    let cut = Trouble {
        number: 3,
        place: 3,
    };
    vec![
        ("bytes of Add64 Rax, 1", reader::read(&bytes) == Ok(add)),
        ("the first eleven", reader::read(&bytes[..11]) == Err(cut)),
    ]
}

fn cell_examples() -> Vec<(&'static str, bool)> {
    let tagged_64 = |addresses: &[u64]| {
        let count = addresses.len();
        let answer = cells::check_lists(addresses, &vec![64; count], &vec![0; count]);
        answer.err().map(|t| (t.number, t.place))
    };
    vec![
        ("cells at 0 and 7", tagged_64(&[0, 7]) == Some((15, 1))),
        ("cells at 0 and 8", tagged_64(&[0, 8]).is_none()),
        ("a cell at 2^64-8", tagged_64(&[TOP - 7]).is_none()),
        ("a cell at 2^64-7", tagged_64(&[TOP - 6]) == Some((15, 0))),
    ]
}

fn job_example() -> Result<(), String> {
    let mut bytes = vec![0; 406];
    bytes[20] = 5;
    bytes[404] = 1;
    bytes.extend([0, 0x10, 0, 0, 0, 0, 0, 0, 64, 7, 0, 0, 0, 0, 0, 0, 0]);
    bytes.extend([0x02, 0x42, 0, 0x10, 0, 0, 0, 0, 0, 0, 0x41, 0]);
    let text = render(&answer_bytes(&bytes));
    let expected = "done\nsteps 1\nflags 0\nRax 5\ncell 4096 64 12\n";
    if bytes.len() != 435 || text != expected {
        return Err(format!("the job of {} bytes: {text}", bytes.len()));
    }
    match parse(&bytes) {
        Ok(job) if job.to_bytes() == bytes => Ok(()),
        _ => Err("the job's bytes do not come back".to_string()),
    }
}

#[cfg(test)]
mod tests {
    #[test]
    fn examples_hold() {
        assert_eq!(super::all(), Ok(34));
    }
}
