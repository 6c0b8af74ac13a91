//! The watch of request 2026-07 through the wrapper: whether the end of a run can hang on the fill word.

use pokchrei::Comparison::OEq;
use pokchrei::Instruction::*;
use pokchrei::Operand::{self, *};
use pokchrei::{run, Answer, Cells, End, Evaluation, Refusal, Setting, State};
use pokchrei::{Builder, Instruction, Reg, Watch, Xmm};

const RAX: Operand = OReg(Reg::RAX);
const RBX: Operand = OReg(Reg::RBX);

const CARRY: u64 = 1;
const OVERFLOW: u64 = 1 << 11;

/// Opens both flags: in a Block it is 12 bytes, and as its first at place 5.
const OPENS: Instruction = Sub64(RBX, OConst(1));
/// The two that keep the other flag as it is; 12 bytes each.
const READS_CARRY: Instruction = Adcx64(RAX, OConst(0));
const READS_OVERFLOW: Instruction = Adox64(RAX, OConst(0));

const EVALUATIONS: [Evaluation; 2] = [Evaluation::Base, Evaluation::Board];
const FILLS: [u64; 6] = [
    0,
    CARRY,
    OVERFLOW,
    CARRY | OVERFLOW,
    u64::MAX,
    !(CARRY | OVERFLOW),
];

fn watch(mark: Option<usize>, carry_open: bool, overflow_open: bool) -> Watch {
    Watch {
        mark,
        carry_open,
        overflow_open,
    }
}

/// The code of a Block of these.
fn block(instructions: &[Instruction]) -> Vec<u8> {
    let mut buffer = [0; 256];
    let mut kernel = Builder::new(&mut buffer);
    assert_eq!(kernel.open_block(), Ok(()));
    for instruction in instructions {
        assert_eq!(kernel.add(*instruction), Ok(()), "{instruction:?}");
    }
    assert_eq!(kernel.close(), Ok(()));
    kernel.finish().expect("it is closed").to_vec()
}

/// Runs code with no cells from Rax 7, Rbx 9 and these flags.
fn run_from(code: &[u8], flags: u64, setting: Setting) -> (End, State) {
    let mut state = State {
        flags,
        ..State::default()
    };
    (state.regs[0], state.regs[1]) = (7, 9);
    let cells = Cells {
        addresses: &[],
        tags: &[],
        values: &mut [],
    };
    (run(code, cells, &mut state, setting), state)
}

fn end_of(instructions: &[Instruction], setting: Setting) -> End {
    run_from(&block(instructions), 0, setting).0
}

fn watch_of(instructions: &[Instruction], evaluation: Evaluation) -> Watch {
    let setting = Setting {
        evaluation,
        ..Setting::default()
    };
    let end = end_of(instructions, setting);
    assert_eq!(end.answer, Answer::Done, "{instructions:?}");
    end.watch
}

/// What is the same under every fill word where the watch is unmarked.
fn promised((end, state): (End, State)) -> (End, [u64; 16], [u32; 64], u64) {
    let open_carry = if end.watch.carry_open { CARRY } else { 0 };
    let open_overflow = if end.watch.overflow_open { OVERFLOW } else { 0 };
    let closed = (CARRY | OVERFLOW) & !(open_carry | open_overflow);
    (end, state.regs, state.xmms, state.flags & closed)
}

#[test]
fn an_unmarked_run_is_the_same_under_other_fill_words() {
    let kernels = [
        vec![OPENS],
        vec![OPENS, Add64(RBX, OConst(0)), READS_CARRY],
        vec![OPENS, Xor64(RBX, RBX), READS_CARRY, READS_OVERFLOW],
        vec![READS_OVERFLOW, OPENS, Lzcnt64(RBX, RAX), READS_CARRY],
        vec![OPENS, Tzcnt64(RBX, RAX), Shl64(RAX, OConst(64))],
    ];
    for kernel in kernels {
        let code = block(&kernel);
        for evaluation in EVALUATIONS {
            let under = |fill| {
                let setting = Setting {
                    fill,
                    evaluation,
                    ..Setting::default()
                };
                promised(run_from(&code, CARRY, setting))
            };
            let first = under(0);
            assert_eq!(first.0.watch.mark, None, "{kernel:?}");
            for fill in FILLS {
                assert_eq!(under(fill), first, "{kernel:?}, fill {fill:x}");
            }
        }
    }
}

#[test]
fn what_is_open_at_the_end_is_the_fill_words() {
    let code = block(&[OPENS]);
    for fill in FILLS {
        let setting = Setting {
            fill,
            ..Setting::default()
        };
        let (end, state) = run_from(&code, 0, setting);
        assert_eq!(end.watch, watch(None, true, true));
        assert_eq!((state.flags ^ fill) & (CARRY | OVERFLOW), 0);
    }
}

#[test]
fn a_marked_run_can_end_otherwise_and_has_the_place() {
    let code = block(&[OPENS, READS_CARRY]);
    for (fill, rax) in [(0, 7), (CARRY, 8)] {
        let setting = Setting {
            fill,
            ..Setting::default()
        };
        let (end, state) = run_from(&code, 0, setting);
        assert_eq!(
            (end.watch, state.regs[0]),
            (watch(Some(17), false, true), rax)
        );
    }
}

#[test]
fn each_of_the_three_that_read_marks() {
    for evaluation in EVALUATIONS {
        let board = evaluation == Evaluation::Board;
        let marked = |carry, overflow| watch(Some(17), carry, overflow);
        assert_eq!(
            watch_of(&[OPENS, READS_CARRY], evaluation),
            marked(false, true)
        );
        assert_eq!(
            watch_of(&[OPENS, READS_OVERFLOW], evaluation),
            marked(true, false)
        );
        assert_eq!(
            watch_of(&[OPENS, AddCarry64(RAX, RBX)], evaluation),
            marked(false, !board)
        );
    }
}

#[test]
fn the_mark_is_the_first_and_not_the_last() {
    let twice = [OPENS, READS_CARRY, OPENS, READS_CARRY];
    let both = [OPENS, READS_OVERFLOW, READS_CARRY];
    // The first reader finds nothing open.
    let later = [READS_CARRY, OPENS, READS_OVERFLOW];
    for evaluation in EVALUATIONS {
        assert_eq!(watch_of(&twice, evaluation), watch(Some(17), false, true));
        assert_eq!(watch_of(&both, evaluation), watch(Some(17), false, false));
        assert_eq!(watch_of(&later, evaluation), watch(Some(29), true, false));
    }
}

#[test]
fn behind_a_mark_flags_open_and_close_as_before() {
    let closed = [OPENS, READS_CARRY, Xor64(RBX, RBX)];
    let opened = [OPENS, READS_CARRY, READS_OVERFLOW, OPENS];
    for evaluation in EVALUATIONS {
        assert_eq!(watch_of(&closed, evaluation), watch(Some(17), false, false));
        assert_eq!(watch_of(&opened, evaluation), watch(Some(17), true, true));
    }
}

#[test]
fn a_reader_that_faults_does_not_mark() {
    let rsp = OReg(Reg::RSP);
    for reader in [
        AddCarry64(rsp, RAX),
        Adcx64(rsp, RAX),
        Adox64(rsp, RAX),
        Adcx64(RAX, MConst(0)),
    ] {
        let end = end_of(&[OPENS, reader, OPENS], Setting::default());
        assert!(
            matches!(end.answer, Answer::Fault { place: 17, .. }),
            "{end:?}"
        );
        assert_eq!((end.steps, end.watch), (1, watch(None, true, true)));
    }
}

#[test]
fn a_run_that_is_stopped_ahead_of_the_reader_is_unmarked() {
    let both_open = watch(None, true, true);
    let marked = watch(Some(17), false, true);
    for (limit, expected) in [(0, watch(None, false, false)), (1, both_open), (2, marked)] {
        let setting = Setting {
            limit,
            ..Setting::default()
        };
        let end = end_of(&[OPENS, READS_CARRY, OPENS], setting);
        assert!(matches!(end.answer, Answer::Stopped { number: 37, .. }));
        assert_eq!((end.steps, end.watch), (limit, expected));
    }
}

#[test]
fn a_refused_run_is_unmarked_with_nothing_open() {
    let code = block(&[OPENS, READS_CARRY]);
    let cut = &code[..code.len() - 1];
    let (end, _) = run_from(cut, CARRY | OVERFLOW, Setting::default());
    assert!(matches!(end.answer, Answer::Refused(Refusal { .. })));
    assert_eq!((end.steps, end.watch), (0, watch(None, false, false)));
}

#[test]
fn the_starts_flags_are_not_open() {
    for evaluation in EVALUATIONS {
        let setting = Setting {
            evaluation,
            ..Setting::default()
        };
        let code = block(&[READS_CARRY, READS_OVERFLOW]);
        let (end, state) = run_from(&code, u64::MAX, setting);
        assert_eq!(
            (end.watch, state.regs[0]),
            (watch(None, false, false), 7 + 2)
        );
    }
}

#[test]
fn an_addition_closes_overflow_on_the_board_alone() {
    let kernel = [OPENS, Add64(RBX, OConst(0)), READS_OVERFLOW];
    let base = watch(Some(29), false, false);
    assert_eq!(watch_of(&kernel, Evaluation::Base), base);
    assert_eq!(
        watch_of(&kernel, Evaluation::Board),
        watch(None, false, false)
    );
}

/// What becomes of a flag.
#[derive(Clone, Copy)]
enum Touch {
    Keeps,
    Opens,
    Closes,
}

/// Every instruction, with what becomes of carry and of overflow by the base's evaluation.
fn touches() -> Vec<(Instruction, Touch, Touch)> {
    use Touch::*;
    let (x, y) = (Xmm(0), Xmm(1));
    vec![
        (Mov64(RAX, RBX), Keeps, Keeps),
        (Add64(RAX, RBX), Closes, Keeps),
        (AddLea64(RAX, RBX, RBX), Keeps, Keeps),
        (AddCarry64(RAX, RBX), Closes, Keeps),
        (Adcx64(RAX, RBX), Closes, Keeps),
        (Adox64(RAX, RBX), Keeps, Closes),
        (Sub64(RAX, RBX), Opens, Opens),
        (Mul64(RBX), Opens, Opens),
        (Mulx64(RAX, RBX, RBX), Keeps, Keeps),
        (IMul64(RAX, RBX), Opens, Opens),
        (Xor64(RAX, RBX), Closes, Closes),
        (And64(RAX, RBX), Opens, Opens),
        (Shr64(RAX, OConst(1)), Opens, Opens),
        (Shl64(RAX, OConst(1)), Opens, Opens),
        (Paddd(x, y), Opens, Opens),
        (Pxor(x, y), Keeps, Keeps),
        (Pslld(x, 1), Keeps, Keeps),
        (Psrld(x, 1), Keeps, Keeps),
        (Pshufd(x, y, 1), Keeps, Keeps),
        (Pcmpeqd(x, y), Keeps, Keeps),
        (Pextrq(RAX, x, 1), Keeps, Keeps),
        (Pinsrd(x, RAX, 1), Keeps, Keeps),
        (Pinsrq(x, RAX, 1), Keeps, Keeps),
        (VPSLLDQ(x, y, 4), Keeps, Keeps),
        (Popcnt64(RAX, RBX), Closes, Closes),
        (Lzcnt64(RAX, RBX), Closes, Opens),
        (Tzcnt64(RAX, RBX), Closes, Opens),
    ]
}

fn after(touch: Touch, was: bool) -> bool {
    match touch {
        Touch::Keeps => was,
        Touch::Opens => true,
        Touch::Closes => false,
    }
}

#[test]
fn every_instruction_opens_and_closes_as_it_should() {
    for (instruction, carry, overflow) in touches() {
        for evaluation in EVALUATIONS {
            let adds = matches!(instruction, Add64(..) | AddCarry64(..));
            let overflow = match evaluation {
                Evaluation::Board if adds => Touch::Closes,
                _ => overflow,
            };
            let alone = watch_of(&[instruction], evaluation);
            let expected = watch(None, after(carry, false), after(overflow, false));
            assert_eq!(alone, expected, "{instruction:?}");
            let reads = matches!(instruction, AddCarry64(..) | Adcx64(..) | Adox64(..));
            let mark = reads.then_some(17);
            let behind = watch_of(&[OPENS, instruction], evaluation);
            let expected = watch(mark, after(carry, true), after(overflow, true));
            assert_eq!(behind, expected, "{instruction:?}");
        }
    }
}

#[test]
fn a_comparison_opens_both_and_one_that_faults_or_has_no_fuel_neither() {
    let loop_while = |operand| {
        let mut buffer = [0; 64];
        let mut kernel = Builder::new(&mut buffer);
        assert_eq!(kernel.open_while(OEq(operand, RBX)), Ok(()));
        assert_eq!(kernel.add(Xor64(RAX, RBX)), Ok(()));
        assert_eq!(kernel.close(), Ok(()));
        kernel.finish().expect("it is closed").to_vec()
    };
    let watch_with = |operand, fuel| {
        let setting = Setting {
            fuel,
            ..Setting::default()
        };
        run_from(&loop_while(operand), 0, setting).0.watch
    };
    // Rax and Rbx differ.
    assert_eq!(watch_with(RAX, 1), watch(None, true, true));
    assert_eq!(watch_with(RAX, 0), watch(None, false, false));
    assert_eq!(watch_with(MConst(0), 1), watch(None, false, false));
}
