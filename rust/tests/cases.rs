//! Cases of document 01 and of requests 2026-02 to 2026-04 and 2026-06 through the wrapper.

use pokchrei::{check_cells, check_code, job, run};
use pokchrei::{Answer, Cells, End, Evaluation, Refusal, Setting, State, Watch, JOB_ROOM};

const ADD_RAX_1: [u8; 12] = [0x02, 0x41, 0x00, 0x40, 1, 0, 0, 0, 0, 0, 0, 0];
const SUB_RAX_1: [u8; 12] = [0x07, 0x41, 0x00, 0x40, 1, 0, 0, 0, 0, 0, 0, 0];

const NOTHING_OPEN: Watch = unmarked(false);

/// A watch without a mark, with neither flag open or both.
const fn unmarked(open: bool) -> Watch {
    Watch {
        mark: None,
        carry_open: open,
        overflow_open: open,
    }
}

/// Runs code with no cells from Rax and flags.
fn run_alone(code: &[u8], rax: u64, flags: u64, setting: Setting) -> (Answer, State) {
    let (end, state) = end_alone(code, rax, flags, setting);
    (end.answer, state)
}

fn end_alone(code: &[u8], rax: u64, flags: u64, setting: Setting) -> (End, State) {
    let mut state = State {
        flags,
        ..State::default()
    };
    state.regs[0] = rax;
    let cells = Cells {
        addresses: &[],
        tags: &[],
        values: &mut [],
    };
    let end = run(code, cells, &mut state, setting);
    (end, state)
}

/// The largest limit.
fn setting(fill: u64, fuel: u32) -> Setting {
    Setting {
        fill,
        fuel,
        ..Setting::default()
    }
}

#[test]
fn p1_add_wraps_and_sets_carry() {
    let (answer, state) = run_alone(&ADD_RAX_1, u64::MAX, 0, Setting::default());
    assert_eq!((answer, state.regs[0], state.flags), (Answer::Done, 0, 1));
}

#[test]
fn p2_add_keeps_overflow() {
    let (answer, state) = run_alone(&ADD_RAX_1, 1, 2048, Setting::default());
    assert_eq!(
        (answer, state.regs[0], state.flags),
        (Answer::Done, 2, 2048)
    );
}

/// From Rax and Rbx and flags, by an instruction of this kind with these as destination and source: Rax and flags.
fn two_registers(kind: u8, words: [u64; 2], flags: u64, setting: Setting) -> (u64, u64) {
    let mut state = State {
        flags,
        ..State::default()
    };
    state.regs[..2].copy_from_slice(&words);
    let cells = Cells {
        addresses: &[],
        tags: &[],
        values: &mut [],
    };
    let end = run(&[kind, 0x41, 0, 0x41, 1], cells, &mut state, setting);
    assert_eq!(end.answer, Answer::Done);
    (state.regs[0], state.flags)
}

fn on_board(fill: u64) -> Setting {
    Setting {
        fill,
        evaluation: Evaluation::Board,
        ..Setting::default()
    }
}

#[test]
fn p2_on_the_board_clears_overflow() {
    let (answer, state) = run_alone(&ADD_RAX_1, 1, 2048, on_board(0));
    assert_eq!((answer, state.regs[0], state.flags), (Answer::Done, 2, 0));
}

#[test]
fn on_the_board_an_addition_sets_overflow_by_the_signed_sum() {
    const LARGEST: u64 = i64::MAX as u64;
    const LEAST: u64 = i64::MIN as u64;
    // Add64 (02) or AddCarry64 (04), both words, flags and fill; then Rax and flags.
    let table = [
        (0x02, [LARGEST, 1], 0, 0, LEAST, 2048),
        (0x02, [LARGEST, 0], 2049, 0, LARGEST, 0),
        (0x02, [LEAST, u64::MAX], 0, 0, LARGEST, 2049),
        (0x02, [LEAST, LARGEST], 2048, 0, u64::MAX, 0),
        (0x04, [LARGEST, 0], 0, 0, LARGEST, 0),
        (0x04, [LARGEST, 0], 1, 0, LEAST, 2048),
        (0x04, [LEAST, u64::MAX], 0, 0, LARGEST, 2049),
        (0x04, [LEAST, u64::MAX], 1, 0, LEAST, 1),
        (0x02, [1, 1], 0, u64::MAX, 2, u64::MAX - 2049),
        (
            0x04,
            [LARGEST, LARGEST],
            u64::MAX,
            u64::MAX,
            u64::MAX,
            u64::MAX - 1,
        ),
    ];
    for (kind, words, flags, fill, rax, after) in table {
        let end = two_registers(kind, words, flags, on_board(fill));
        assert_eq!(
            end,
            (rax, after),
            "{kind} of {words:x?}, flags {flags:x}, fill {fill:x}"
        );
    }
}

#[test]
fn adcx_and_adox_do_not_change_on_the_board() {
    for kind in [0x05, 0x06] {
        for flags in [0, 1, 2048, 2049, u64::MAX] {
            let words = [i64::MAX as u64, 1];
            let base = two_registers(kind, words, flags, setting(7, 0));
            assert_eq!(two_registers(kind, words, flags, on_board(7)), base);
        }
    }
}

#[test]
fn p3_sub_sets_flags_to_fill() {
    let (answer, state) = run_alone(&SUB_RAX_1, 0, 0, setting(9, 0));
    assert_eq!(
        (answer, state.regs[0], state.flags),
        (Answer::Done, u64::MAX, 9)
    );
}

#[test]
fn p10_fuel_is_tested_before_a_false_condition() {
    let code = count_down();
    let (answer, _) = run_alone(&code, 0, 0, Setting::default());
    assert_eq!(answer, Answer::Spent { place: 0 });
    let (answer, _) = run_alone(&code, 0, 0, setting(0, 1));
    assert_eq!(answer, Answer::Done);
}

/// While Rax differs from 0, Sub64 Rax 1: the comparison is at 5, the Sub64 at 17.
fn count_down() -> Vec<u8> {
    let mut code = vec![
        0x22, 12, 0, 0, 0, 0x31, 0x41, 0, 0x40, 0, 0, 0, 0, 0, 0, 0, 0,
    ];
    code.extend(SUB_RAX_1);
    code
}

#[test]
fn p14_under_limits_around_its_steps() {
    let stopped = |place| Answer::Stopped { number: 37, place };
    let spent = Answer::Spent { place: 0 };
    // Fuel, limit, and the answer, the steps and Rax that come of 3.
    let table = [
        (4, u64::MAX, Answer::Done, 7, 0),
        (4, 7, Answer::Done, 7, 0),
        (4, 6, stopped(5), 6, 0),
        (4, 5, stopped(17), 5, 1),
        (4, 1, stopped(17), 1, 3),
        (4, 0, stopped(5), 0, 3),
        (3, 7, spent, 6, 0),
        (3, 6, spent, 6, 0),
        (3, 5, stopped(17), 5, 1),
        (0, 0, spent, 0, 3),
    ];
    for (fuel, limit, answer, steps, rax) in table {
        let setting = Setting {
            fill: 0,
            fuel,
            limit,
            ..Setting::default()
        };
        let (end, state) = end_alone(&count_down(), 3, 0, setting);
        // The comparison, which is the first step, opens both flags, and so does the Sub64.
        let expected = End {
            answer,
            steps,
            watch: unmarked(steps > 0),
        };
        assert_eq!(
            (end, state.regs[0]),
            (expected, rax),
            "fuel {fuel}, limit {limit}"
        );
    }
}

#[test]
fn a_fault_is_no_step_and_stopped_comes_ahead_of_it() {
    // Shl64 Rax by 64
    let code = [0x0e, 0x41, 0, 0x40, 64, 0, 0, 0, 0, 0, 0, 0];
    let fault = Answer::Fault {
        number: 33,
        place: 0,
    };
    let stopped = Answer::Stopped {
        number: 37,
        place: 0,
    };
    for (limit, answer) in [(1, fault), (0, stopped)] {
        let setting = Setting {
            limit,
            ..Setting::default()
        };
        let (end, state) = end_alone(&code, 1, 0, setting);
        let expected = End {
            answer,
            steps: 0,
            watch: NOTHING_OPEN,
        };
        assert_eq!((end, state.regs[0]), (expected, 1));
    }
}

#[test]
fn p12_rsp_takes_nothing() {
    let mut code = ADD_RAX_1;
    code[0] = 0x01;
    code[2] = 7;
    let (answer, state) = run_alone(&code, 3, 5, Setting::default());
    let fault = Answer::Fault {
        number: 32,
        place: 0,
    };
    assert_eq!((answer, state.regs[7], state.flags), (fault, 0, 5));
}

/// Mov64 between a register and MReg Rax with this offset, over one 64-bit cell at 0.
fn at_rax(store: bool, rax: u64, offset: i64) -> (Answer, [u64; 1], u64) {
    let memory = [&[0x43, 0][..], &offset.to_le_bytes()].concat();
    let register = [0x41, 1];
    let code = match store {
        true => [&[0x01][..], &memory, &register].concat(),
        false => [&[0x01][..], &register, &memory].concat(),
    };
    let mut state = State::default();
    (state.regs[0], state.regs[1]) = (rax, 5);
    let mut values = [6];
    let cells = Cells {
        addresses: &[0],
        tags: &[64],
        values: &mut values,
    };
    let end = run(&code, cells, &mut state, Setting::default());
    (end.answer, values, state.regs[1])
}

#[test]
fn p11_and_the_ends_of_the_range() {
    let fault = |number| Answer::Fault { number, place: 0 };
    // Rax, the offset, and what a source and a destination there are; the cell is at 0.
    let table = [
        (u64::MAX, 1, Some((36, 36))),
        (u64::MAX, 0, Some((31, 32))),
        (u64::MAX, -7, Some((31, 32))),
        (8, -8, None),
        (8, -9, Some((36, 36))),
        (1, 0, Some((31, 32))),
    ];
    for (rax, offset, expected) in table {
        let read = expected.map_or((Answer::Done, [6], 6), |(n, _)| (fault(n), [6], 5));
        let written = expected.map_or((Answer::Done, [5], 5), |(_, n)| (fault(n), [6], 5));
        assert_eq!(at_rax(false, rax, offset), read, "{rax} {offset}");
        assert_eq!(at_rax(true, rax, offset), written, "{rax} {offset}");
    }
}

/// A source, and what Popcnt64, Lzcnt64 and Tzcnt64 make of it.
const COUNTS: [(u64, [u64; 3]); 6] = [
    (0, [0, 64, 64]),
    (1, [1, 63, 0]),
    (1 << 63, [1, 0, 63]),
    (0x0ff0, [8, 52, 4]),
    (0x5555_5555_5555_5555, [32, 1, 0]),
    (u64::MAX, [64, 0, 0]),
];

#[test]
fn counts_and_their_flags() {
    const CARRY: u64 = 1;
    const OVERFLOW: u64 = 1 << 11;
    for fill in [0, CARRY, OVERFLOW, u64::MAX] {
        for (source, expected) in COUNTS {
            let ones = fill & !(CARRY | OVERFLOW);
            let zeros = fill & !CARRY | u64::from(source == 0);
            for (i, flags) in [ones, zeros, zeros].into_iter().enumerate() {
                // Rax is destination and source.
                let code = [0x19 + i as u8, 0x41, 0, 0x41, 0];
                let (answer, state) = run_alone(&code, source, 9, setting(fill, 0));
                let end = (answer, state.regs[0], state.flags);
                let expected = (Answer::Done, expected[i], flags);
                assert_eq!(end, expected, "{code:?}, source {source}, fill {fill}");
            }
        }
    }
}

#[test]
fn cut_code_is_refused_and_the_start_comes_back() {
    let refusal = Refusal {
        number: 3,
        place: 3,
    };
    assert_eq!(check_code(&ADD_RAX_1), Ok(()));
    assert_eq!(check_code(&ADD_RAX_1[..11]), Err(refusal));
    let (end, state) = end_alone(&ADD_RAX_1[..11], 8, 1, Setting::default());
    let answer = Answer::Refused(refusal);
    let refused = End {
        answer,
        steps: 0,
        watch: NOTHING_OPEN,
    };
    assert_eq!((end, state.regs[0], state.flags), (refused, 8, 1));
}

#[test]
fn cells_that_overlap_are_refused() {
    let refusal = Refusal {
        number: 15,
        place: 1,
    };
    assert_eq!(check_cells(&[0, 7], &[64, 64], &[0, 0]), Err(refusal));
    assert_eq!(check_cells(&[0, 8], &[64, 64], &[0, 0]), Ok(()));
    assert_eq!(check_cells(&[], &[], &[]), Ok(()));
}

#[test]
fn the_job_of_document_01() {
    let code = [0x02, 0x42, 0x00, 0x10, 0, 0, 0, 0, 0, 0, 0x41, 0x00];
    let mut values = [7];
    let mut state = State::default();
    state.regs[0] = 5;
    let cells = Cells {
        addresses: &[4096],
        tags: &[64],
        values: &mut values,
    };
    let end = run(&code, cells, &mut state, Setting::default());
    let mut last = State::default();
    last.regs[0] = 5;
    let done = End {
        answer: Answer::Done,
        steps: 1,
        watch: NOTHING_OPEN,
    };
    assert_eq!((end, state, values), (done, last, [12]));
}

#[test]
fn the_bytes_of_that_job() {
    let mut input = vec![0; 435];
    input[20] = 5;
    input[404] = 1;
    input[407] = 0x10;
    input[414] = 64;
    input[415] = 7;
    input[423..].copy_from_slice(&[0x02, 0x42, 0x00, 0x10, 0, 0, 0, 0, 0, 0, 0x41, 0x00]);
    let mut out = [0; JOB_ROOM];
    let text = job(&input, &mut out);
    assert_eq!(text, b"done\nsteps 1\nflags 0\nRax 5\ncell 4096 64 12\n");
    assert_eq!(job(&input[..405], &mut out), b"refused 41 at 0\n");
}
