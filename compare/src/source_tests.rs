//! What the log shows of a run that goes on after a failed check.

use super::*;
use crate::cells::Cell;
use crate::follow::{Mode, Settings, OFF_MEM64};
use crate::terms::Evaluation::Base;
use crate::tree::Instruction::*;

const A: Operand = Operand::Reg(RAX);
const ONE: Operand = Operand::Const(1);
const NOWHERE: Operand = Operand::Mem(Maddr::Const(5));

fn state(cells: &[Cell]) -> State {
    let start = Start {
        flags: 2,
        regs: [0; 16],
        xmms: [[0; 4]; 16],
    };
    State::new(&start, cells)
}

fn ins(place: usize, instruction: Instruction) -> Code {
    Code {
        place,
        node: Node::Ins(instruction),
    }
}

fn block(codes: Vec<Code>) -> Code {
    Code::unplaced(Node::Block(codes))
}

fn while_loop(place: usize, condition: Ocmp, body: Code) -> Code {
    Code {
        place,
        node: Node::While(condition, Box::new(body)),
    }
}

fn always() -> Ocmp {
    Ocmp::unplaced(Relation::Eq, ONE, ONE)
}

/// The bad events, the end's `ok` and Rax (none after None), and how much was
/// followed.
fn followed(code: &Code, fuel: u64, mode: Mode) -> (Vec<Event>, Option<(bool, u64)>, u64) {
    let settings = Settings {
        mode,
        ..Settings::new(0, Base.unlimited())
    };
    let mut f = Follow::new(settings);
    let end = eval_code(code, fuel, state(&[]), &mut f).ok();
    (f.log.bad, end.map(|s| (s.ok, s.regs[0])), f.followed)
}

#[test]
fn a_block_does_not_look_at_ok() {
    let code = block(vec![
        ins(3, Mov64(Operand::Reg(RSP), ONE)),
        ins(9, Mov64(A, NOWHERE)),
        ins(12, Add64(ONE, NOWHERE)),
    ]);
    let (bad, end, count) = followed(&code, 0, Mode::RunsOn);
    let expected = [(32, 3), (31, 9), (31, 12), (32, 12)];
    assert_eq!(bad, expected.map(|(n, p)| Event::Failed(n, p)));
    assert_eq!((end, count), (Some((false, OFF_MEM64)), 3));
    let (bad, end, count) = followed(&code, 0, Mode::StopsAtFirst);
    assert_eq!((bad.len(), end, count), (1, None, 1));
}

#[test]
fn a_loop_stops_after_a_round_that_failed() {
    let body = block(vec![ins(1, Mov64(ONE, ONE)), ins(2, Add64(A, ONE))]);
    let code = while_loop(7, always(), body);
    let (bad, end, _) = followed(&code, 1, Mode::RunsOn);
    assert_eq!(bad, [Event::Failed(32, 1)]);
    assert_eq!(end, Some((false, 1)));
}

#[test]
fn a_failed_check_comes_before_a_later_starvation() {
    let inner = while_loop(20, always(), block(Vec::new()));
    let code = block(vec![ins(1, Mov64(ONE, ONE)), inner]);
    let (bad, end, _) = followed(&code, 0, Mode::RunsOn);
    assert_eq!(bad, [Event::Failed(32, 1), Event::Starved(20)]);
    assert_eq!(end, None);
}

/// The limit is met at 9: what comes then is followed as without one, makes no
/// steps and meets no limit again. The snapshot is from ahead of 9.
#[test]
fn the_source_runs_on_past_the_limit() {
    let inner = while_loop(20, always(), block(Vec::new()));
    let code = block(vec![
        ins(3, Add64(A, ONE)),
        ins(9, Add64(A, ONE)),
        ins(12, Mov64(ONE, ONE)),
        inner,
    ]);
    let mut f = Follow::new(Settings::new(0, Base.limited(1)));
    assert!(eval_code(&code, 0, state(&[]), &mut f).is_err());
    let expected = [
        Event::LimitMet(9),
        Event::Failed(32, 12),
        Event::Starved(20),
    ];
    assert_eq!(f.log.bad, expected);
    assert_eq!((f.followed, f.steps_made), (3, 1));
    assert_eq!(f.log.before_first.unwrap().regs[0], 1);
}

#[test]
fn body_and_next_round_each_get_one_less() {
    let below = |limit| Ocmp::unplaced(Relation::Lt, A, Operand::Const(limit));
    // The inner loop runs to 3 in the outer loop's first round, with the
    // outer loop's fuel less one, and takes none of it away.
    let inner = while_loop(2, below(3), ins(3, Add64(A, ONE)));
    let body = block(vec![inner, ins(4, Add64(A, ONE))]);
    let code = while_loop(1, below(6), body);
    assert_eq!(followed(&code, 4, Mode::RunsOn).0, [Event::Starved(2)]);
    let (bad, end, _) = followed(&code, 5, Mode::RunsOn);
    assert_eq!((bad, end), (vec![], Some((true, 6))));
}

#[test]
fn a_fault_in_the_second_half_of_mulx_shows_the_start() {
    let cell = Cell {
        address: 8,
        tag: 64,
        value: 7,
    };
    let low = Operand::Mem(Maddr::Const(8));
    let mut f = Follow::new(Settings::new(0, Base.unlimited()));
    let code = ins(0, Mulx64(NOWHERE, low, ONE));
    let end = eval_code(&code, 0, state(&[cell]), &mut f).ok().unwrap();
    assert_eq!(end.cells(&[cell])[0].value, 0);
    assert_eq!(f.log.before_first.unwrap().cells(&[cell]), [cell]);
}

/// Rax is 0, so these leave the range below 0 and above 2^64-1.
const WILD: [Operand; 2] = [
    Operand::Mem(Maddr::Reg(RAX, -1)),
    Operand::Mem(Maddr::Index(RAX, 2, RDX, 0)),
];

/// The bad events of a comparison at place 9 over Rdx 2^63 and a cell at 8,
/// in an IfElse and in a While around nothing.
fn compared(relation: Relation, left: Operand, right: Operand) -> [Vec<Event>; 2] {
    let condition = Ocmp {
        place: 9,
        ..Ocmp::unplaced(relation, left, right)
    };
    let nothing = || Box::new(block(Vec::new()));
    let chosen = Node::IfElse(condition.clone(), nothing(), nothing());
    let looped = Node::While(condition, nothing());
    [chosen, looped].map(|node| {
        let cell = Cell {
            address: 8,
            tag: 64,
            value: 7,
        };
        let mut s = state(&[cell]);
        s.regs[usize::from(RDX)] = 1 << 63;
        let settings = Settings {
            mode: Mode::StopsAtFirst,
            ..Settings::new(0, Base.unlimited())
        };
        let mut f = Follow::new(settings);
        let _ = eval_code(&Code::unplaced(node), 1, s, &mut f);
        f.log.bad
    })
}

/// One check over two operands: the first that fails names it.
#[test]
fn a_comparison_is_judged_by_its_first_operand_first() {
    let fine = Operand::Mem(Maddr::Const(8));
    for wild in WILD {
        let table = [
            (fine, NOWHERE, 31),
            (fine, wild, 36),
            (NOWHERE, fine, 31),
            (NOWHERE, NOWHERE, 31),
            (NOWHERE, wild, 31),
            (wild, fine, 36),
            (wild, NOWHERE, 36),
            (wild, wild, 36),
            (ONE, wild, 36),
            (A, NOWHERE, 31),
        ];
        for (left, right, number) in table {
            let expected = vec![Event::Failed(number, 9)];
            for relation in RELATIONS {
                let bad = compared(relation, left, right);
                assert_eq!(bad, [expected.clone(), expected.clone()]);
            }
        }
    }
    let [chosen, _] = compared(Relation::Eq, fine, ONE);
    assert_eq!(chosen, []);
}

#[test]
fn fuel_is_tested_before_a_wild_condition() {
    let condition = Ocmp::unplaced(Relation::Eq, WILD[0], ONE);
    let code = while_loop(7, condition, block(Vec::new()));
    assert_eq!(followed(&code, 0, Mode::RunsOn).0, [Event::Starved(7)]);
    let fault = Event::Failed(36, 0);
    assert_eq!(followed(&code, 1, Mode::RunsOn).0, [fault]);
}
