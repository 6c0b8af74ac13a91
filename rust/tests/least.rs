//! The least fuel of request 2026-09 through the wrapper.

use pokchrei::Comparison::{self, OEq, ONe};
use pokchrei::Instruction::*;
use pokchrei::Operand::{self, *};
use pokchrei::{least_fuel, run, Answer, Cells, Evaluation, Least, LeastEnd, Refusal, Setting};
use pokchrei::{BuildRefusal, Builder, Instruction, Reg, State, Watch};

const RAX: Operand = OReg(Reg::RAX);
const RBX: Operand = OReg(Reg::RBX);
const ONE: Operand = OConst(1);

/// Some have a 64-bit cell, at 4096, of value 7.
const CELL: Operand = MConst(4096);

/// A code in the making: what its calls answer is looked at once.
type Made = Result<(), BuildRefusal>;

fn kernel(make: fn(&mut Builder<'_>) -> Made) -> Vec<u8> {
    let mut buffer = [0; 256];
    let mut kernel = Builder::new(&mut buffer);
    assert_eq!(make(&mut kernel), Ok(()));
    kernel.finish().expect("it is closed").to_vec()
}

fn not_zero(operand: Operand) -> Comparison {
    ONe(operand, OConst(0))
}

/// While it differs from 0, 1 is taken from it.
fn count_down(kernel: &mut Builder<'_>, operand: Operand) -> Made {
    kernel.open_while(not_zero(operand))?;
    kernel.add(Sub64(operand, ONE))?;
    kernel.close()
}

/// P14.
fn p14() -> Vec<u8> {
    kernel(|k| count_down(k, RAX))
}

fn one(instruction: Instruction) -> Vec<u8> {
    let mut buffer = [0; 64];
    let mut kernel = Builder::new(&mut buffer);
    assert_eq!(kernel.add(instruction), Ok(()));
    kernel.finish().expect("it is one code").to_vec()
}

fn with(fuel: u32, limit: u64) -> Setting {
    Setting {
        fuel,
        limit,
        ..Setting::default()
    }
}

fn unlimited(fuel: u32) -> Setting {
    with(fuel, u64::MAX)
}

/// A state with these in Rax and Rbx, and the cell's value, before or after.
type Kept = (State, u64);

fn from(rax: u64, rbx: u64) -> Kept {
    let mut state = State::default();
    (state.regs[0], state.regs[1]) = (rax, rbx);
    (state, 7)
}

/// Lends state and cell to a call, and hands back what it answers and leaves.
fn lent<T>(
    code: &[u8],
    (mut state, value): Kept,
    setting: Setting,
    call: fn(&[u8], Cells<'_>, &mut State, Setting) -> T,
) -> (T, Kept) {
    let mut values = [value];
    let cells = Cells {
        addresses: &[4096],
        tags: &[64],
        values: &mut values,
    };
    let end = call(code, cells, &mut state, setting);
    (end, (state, values[0]))
}

fn searched(code: &[u8], start: Kept, setting: Setting) -> (LeastEnd, Kept) {
    lent(code, start, setting, least_fuel)
}

/// What a run ends in, in a search's terms: the least fuel is taken to be its own.
fn ran(code: &[u8], start: Kept, setting: Setting) -> (LeastEnd, Kept) {
    let (end, left) = lent(code, start, setting, run);
    let least = match end.answer {
        Answer::Spent { place } => Least::CapSpent { number: 61, place },
        Answer::Refused(refusal) => Least::Refused(refusal),
        answer => Least::Fuel {
            fuel: setting.fuel,
            answer,
        },
    };
    let (steps, watch) = (end.steps, end.watch);
    (
        LeastEnd {
            least,
            steps,
            watch,
        },
        left,
    )
}

/// By trying, from no fuel up to the cap.
fn tried(code: &[u8], start: &Kept, setting: Setting) -> (LeastEnd, Kept) {
    let tries =
        (0..=setting.fuel).map(|fuel| ran(code, start.clone(), Setting { fuel, ..setting }));
    let mut last = None;
    for end in tries {
        let spent = matches!(end.0.least, Least::CapSpent { .. });
        last = Some(end);
        if !spent {
            break;
        }
    }
    last.expect("there is a cap")
}

fn found(fuel: u32, answer: Answer) -> Least {
    Least::Fuel { fuel, answer }
}

fn stopped(place: usize) -> Answer {
    Answer::Stopped { number: 37, place }
}

const CAP_SPENT_AT_0: Least = Least::CapSpent {
    number: 61,
    place: 0,
};

#[test]
fn p14_reports_4() {
    for cap in [4, 5, 100, u32::MAX] {
        let (end, (state, value)) = searched(&p14(), from(3, 0), with(cap, 100));
        assert_eq!(end.least, found(4, Answer::Done), "cap {cap}");
        assert_eq!((end.steps, state.regs, value), (7, [0; 16], 7));
    }
}

#[test]
fn a_cap_that_is_spent_is_61() {
    for (cap, steps, rax) in [(3, 6, 0), (2, 4, 1), (1, 2, 2), (0, 0, 3)] {
        let (end, (state, _)) = searched(&p14(), from(3, 0), unlimited(cap));
        assert_eq!(end.least, CAP_SPENT_AT_0, "cap {cap}");
        assert_eq!((end.steps, state.regs[0]), (steps, rax), "cap {cap}");
    }
}

#[test]
fn without_a_loop_test_it_is_0() {
    let untaken = kernel(|k| {
        k.open_if_else(OEq(RAX, RBX))?;
        count_down(k, RAX)?;
        k.close()?;
        k.add(Add64(RAX, ONE))?;
        k.close()
    });
    for cap in [0, 1, u32::MAX] {
        let added = searched(&one(Add64(CELL, RAX)), from(5, 0), unlimited(cap));
        assert_eq!(added.0.least, found(0, Answer::Done));
        assert_eq!(added.1 .1, 12);
        // The loop stands in the part that is not taken.
        let (end, _) = searched(&untaken, from(5, 6), unlimited(cap));
        assert_eq!(end.least, found(0, Answer::Done));
    }
}

#[test]
fn a_fault_has_its_least_fuel() {
    // The second round finds no cell: Rax is 4096, then 4097.
    let code = kernel(|k| {
        k.open_while(not_zero(MReg(Reg::RAX, 0)))?;
        k.add(Add64(RAX, ONE))?;
        k.close()
    });
    let fault = Answer::Fault {
        number: 31,
        place: 5,
    };
    let (end, (state, _)) = searched(&code, from(4096, 0), unlimited(9));
    assert_eq!((end.least, end.steps), (found(2, fault), 2));
    assert_eq!(state.regs[0], 4097);
    assert_eq!(
        searched(&code, from(4096, 0), unlimited(1)).0.least,
        CAP_SPENT_AT_0
    );
}

#[test]
fn a_limit_lowers_the_answer() {
    // Each round is two steps: the comparison at 5 and the Sub64 at 17. The loop is tested before either.
    let ends = [
        (0, found(1, stopped(5))),
        (1, found(1, stopped(17))),
        (2, found(2, stopped(5))),
        (3, found(2, stopped(17))),
        (4, found(3, stopped(5))),
        (5, found(3, stopped(17))),
        (6, found(4, stopped(5))),
        (7, found(4, Answer::Done)),
    ];
    for (limit, least) in ends {
        let (end, _) = searched(&p14(), from(3, 0), with(9, limit));
        assert_eq!((end.least, end.steps), (least, limit), "limit {limit}");
    }
    // No fuel comes ahead of the limit.
    assert_eq!(
        searched(&p14(), from(3, 0), with(0, 0)).0.least,
        CAP_SPENT_AT_0
    );
}

#[test]
fn the_loop_that_needs_most_decides() {
    let row = kernel(|k| {
        k.open_block()?;
        count_down(k, RAX)?;
        count_down(k, RBX)?;
        k.close()
    });
    let nested = kernel(|k| {
        k.open_while(not_zero(RAX))?;
        k.open_block()?;
        count_down(k, RBX)?;
        k.add(Sub64(RAX, ONE))?;
        k.close()?;
        k.close()
    });
    let needs = [
        (&row, (3, 1), 4),
        (&row, (1, 3), 4),
        // In the first round the inner loop is tested with one less each time, from one below the outer loop's.
        (&nested, (2, 3), 5),
        (&nested, (1, 0), 2),
        // The last round of five, and the test that ends it.
        (&nested, (5, 1), 6),
    ];
    for (code, (rax, rbx), fuel) in needs {
        let (end, _) = searched(code, from(rax, rbx), unlimited(50));
        assert_eq!(end.least, found(fuel, Answer::Done), "{rax} {rbx}");
    }
}

#[test]
fn stores_are_those_of_one_run() {
    let code = kernel(|k| {
        k.open_while(not_zero(RAX))?;
        k.open_block()?;
        k.add(Add64(CELL, RAX))?;
        k.add(Sub64(RAX, ONE))?;
        k.close()?;
        k.close()
    });
    let (end, (state, value)) = searched(&code, from(4, 0), unlimited(1000));
    assert_eq!(end.least, found(5, Answer::Done));
    assert_eq!((state.regs[0], value), (0, 7 + 4 + 3 + 2 + 1));
    // At a cap of 2 two rounds have been made.
    let (end, (state, value)) = searched(&code, from(4, 0), unlimited(2));
    assert_eq!(end.least, CAP_SPENT_AT_0);
    assert_eq!((state.regs[0], value), (2, 7 + 4 + 3));
}

#[test]
fn the_evaluation_decides_where_a_loop_hangs_on_overflow() {
    // Rax 2^63 - 1 and 1 overflow on the board: Adox64 then makes Rbx 1 more, and there is one round more.
    let code = kernel(|k| {
        k.open_block()?;
        k.add(Add64(RAX, ONE))?;
        k.add(Adox64(RBX, OConst(2)))?;
        count_down(k, RBX)?;
        k.close()
    });
    for (evaluation, fuel) in [(Evaluation::Base, 3), (Evaluation::Board, 4)] {
        let setting = Setting {
            evaluation,
            ..unlimited(100)
        };
        let (end, _) = searched(&code, from(i64::MAX as u64, 0), setting);
        assert_eq!(end.least, found(fuel, Answer::Done), "{evaluation:?}");
    }
}

#[test]
fn refusals_come_first_and_leave_all_as_it_was() {
    let start = from(3, 0);
    let nothing = Watch {
        mark: None,
        carry_open: false,
        overflow_open: false,
    };
    let cut = &p14()[..28];
    let (end, left) = searched(cut, start.clone(), unlimited(0));
    let refusal = Refusal {
        number: 6,
        place: 0,
    };
    assert_eq!(end.least, Least::Refused(refusal));
    assert_eq!((end.steps, end.watch), (0, nothing));
    assert!(left == start);
    // A cell of 8 bits has no value of 256.
    let (mut state, mut values) = (start.0.clone(), [256]);
    let cells = Cells {
        addresses: &[0],
        tags: &[8],
        values: &mut values,
    };
    let end = least_fuel(&p14(), cells, &mut state, unlimited(0));
    let refusal = Refusal {
        number: 14,
        place: 0,
    };
    assert_eq!(end.least, Least::Refused(refusal));
    assert!((state, values) == (start.0, [256]));
}

#[test]
fn it_is_what_trying_finds() {
    let in_turn = kernel(|k| {
        k.open_while(not_zero(RAX))?;
        k.open_block()?;
        k.open_if_else(OEq(RAX, OConst(2)))?;
        count_down(k, RBX)?;
        k.close()?;
        k.add(Add64(CELL, RAX))?;
        k.close()?;
        k.add(Sub64(RAX, ONE))?;
        k.close()?;
        k.close()
    });
    for code in [p14(), in_turn] {
        for (rax, rbx) in [(0, 5), (1, 5), (2, 5), (3, 1), (4, 0)] {
            for limit in (0..12).chain([u64::MAX]) {
                for cap in 0..9 {
                    let (start, setting) = (from(rax, rbx), with(cap, limit));
                    let (found, tried) = (
                        searched(&code, start.clone(), setting),
                        tried(&code, &start, setting),
                    );
                    assert!(found == tried, "{rax} {rbx}, {setting:?}: {:?}", found.0);
                }
            }
        }
    }
}
