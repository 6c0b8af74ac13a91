//! Request 2026-08 through the wrapper: the scale of an MIndex is 1, 2, 4 or 8, and any other is refused with 7.

use pokchrei::Comparison::OEq;
use pokchrei::Instruction::*;
use pokchrei::Operand::{self, *};
use pokchrei::{check_code, job, run, Answer, Cells, Refusal, Setting, State, JOB_ROOM};
use pokchrei::{BuildRefusal, Builder, Reg, Xmm};

const SCALES: [i16; 4] = [1, 2, 4, 8];
const OTHERS: [i16; 9] = [0, 3, -1, 7, 9, 16, 256, 32_767, -32_768];

const RAX: Operand = OReg(Reg::RAX);
const ABSENT: Operand = OReg(Reg(16));

/// Base, scale, index and offset of an MIndex.
#[derive(Clone, Copy, Debug)]
struct Fields(u8, i16, u8, i64);

impl Fields {
    fn operand(self) -> Operand {
        let Fields(base, scale, index, offset) = self;
        MIndex {
            base: Reg(base),
            scale,
            index: Reg(index),
            offset,
        }
    }

    /// The places of base, scale and index in these are 1, 2 and 4.
    fn bytes(self) -> Vec<u8> {
        let Fields(base, scale, index, offset) = self;
        let scale = scale.to_le_bytes();
        [&[0x44, base], &scale[..], &[index], &offset.to_le_bytes()].concat()
    }
}

type Call = fn(&mut Builder<'_>, Operand) -> Result<(), BuildRefusal>;

/// A code with an MIndex: the bytes ahead of it and behind it, and the call that adds its record to a build.
struct Host {
    ahead: &'static [u8],
    behind: &'static [u8],
    call: Call,
}

const fn host(ahead: &'static [u8], behind: &'static [u8], call: Call) -> Host {
    Host {
        ahead,
        behind,
        call,
    }
}

impl Host {
    fn code(&self, fields: Fields) -> Vec<u8> {
        [self.ahead, &fields.bytes(), self.behind].concat()
    }
}

/// An MIndex as the only operand, as the first, the second and the third, behind xmm numbers, and in conditions. The
/// parts of IfElse and While are of a Pxor each.
const HOSTS: [Host; 7] = [
    host(&[0x08], &[], |b, o| b.add(Mul64(o))),
    host(&[0x01], &[0x41, 0], |b, o| b.add(Mov64(o, RAX))),
    host(&[0x01, 0x41, 0], &[], |b, o| b.add(Mov64(RAX, o))),
    host(&[0x03, 0x41, 0, 0x41, 0], &[], |b, o| {
        b.add(AddLea64(RAX, RAX, o))
    }),
    host(&[0x17, 15, 1], &[], |b, o| b.add(Pinsrq(Xmm(15), o, 1))),
    host(
        &[0x21, 3, 0, 0, 0, 3, 0, 0, 0, 0x30, 0x41, 0],
        &[0x10, 0, 1, 0x10, 0, 1],
        |b, o| b.open_if_else(OEq(RAX, o)),
    ),
    host(&[0x22, 3, 0, 0, 0, 0x30], &[0x41, 0, 0x10, 0, 1], |b, o| {
        b.open_while(OEq(o, RAX))
    }),
];

/// Runs code from registers, over one 64-bit cell that holds 6. Answers the end, state and cell.
fn run_over(code: &[u8], regs: [u64; 16], address: u64) -> (Answer, State, u64) {
    let mut state = State {
        regs,
        ..State::default()
    };
    let mut values = [6];
    let cells = Cells {
        addresses: &[address],
        tags: &[64],
        values: &mut values,
    };
    let end = run(code, cells, &mut state, Setting::default());
    (end.answer, state, values[0])
}

/// Code is refused with this number and place by what checks it, runs it and answers it as a job.
fn refused(code: &[u8], number: u8, place: usize) {
    let refusal = Refusal { number, place };
    assert_eq!(check_code(code), Err(refusal), "{code:x?}");
    let start = State {
        regs: [9; 16],
        ..State::default()
    };
    let end = run_over(code, start.regs, 4096);
    assert_eq!(end, (Answer::Refused(refusal), start, 6), "{code:x?}");
    // Fuel, fill, flags, registers, xmm and the count of cells are 0.
    let input = [&[0; 406], code].concat();
    let text = format!("refused {number} at {place}\n");
    assert_eq!(job(&input, &mut [0; JOB_ROOM]), text.as_bytes());
}

/// A call is refused with this number by an open build, and the text of build and buffer is the same before and behind it.
fn not_built(call: Call, operand: Operand, number: u8) {
    let mut buffer = [0xee; 64];
    let mut builder = Builder::new(&mut buffer);
    assert_eq!(builder.open_block(), Ok(()));
    let before = format!("{builder:?}");
    let answer = call(&mut builder, operand).map_err(BuildRefusal::number);
    assert_eq!(answer, Err(number), "{operand:?}");
    assert_eq!(format!("{builder:?}"), before, "{operand:?}");
}

/// In any host, a field of the MIndex is the first that is wrong: its number, and its place in the operand.
fn wrong_in_each_host(fields: Fields, number: u8, field: usize) {
    for host in HOSTS {
        refused(&host.code(fields), number, host.ahead.len() + field);
        not_built(host.call, fields.operand(), number);
    }
}

#[test]
fn no_other_scale_is_accepted() {
    for scale in OTHERS {
        wrong_in_each_host(Fields(15, scale, 15, -1), 7, 2);
    }
}

#[test]
fn base_scale_and_index_are_judged_in_this_order() {
    let table = [
        (Fields(16, 3, 0, 0), 4, 1),
        (Fields(16, 3, 16, 0), 4, 1),
        (Fields(16, 8, 16, 0), 4, 1),
        (Fields(15, 3, 16, 0), 7, 2),
        (Fields(0, -1, 255, 0), 7, 2),
        (Fields(15, 8, 16, 0), 4, 4),
    ];
    for (fields, number, field) in table {
        wrong_in_each_host(fields, number, field);
    }
}

/// A wrong scale and a wrong number elsewhere in the record: the number of what stands first, and its place.
const ELSEWHERE: [(Host, u8, usize); 5] = [
    (
        host(&[0x01], &[0x41, 16], |b, o| b.add(Mov64(o, ABSENT))),
        7,
        3,
    ),
    (
        host(&[0x01, 0x41, 16], &[], |b, o| b.add(Mov64(ABSENT, o))),
        4,
        2,
    ),
    (
        host(&[0x17, 16, 1], &[], |b, o| b.add(Pinsrq(Xmm(16), o, 1))),
        4,
        1,
    ),
    (
        host(
            &[0x22, 3, 0, 0, 0, 0x30],
            &[0x41, 16, 0x10, 0, 1],
            |b, o| b.open_while(OEq(o, ABSENT)),
        ),
        7,
        8,
    ),
    (
        host(
            &[0x22, 3, 0, 0, 0, 0x30, 0x41, 16],
            &[0x10, 0, 1],
            |b, o| b.open_while(OEq(ABSENT, o)),
        ),
        4,
        7,
    ),
];

#[test]
fn a_wrong_scale_and_a_wrong_number_elsewhere_in_the_record() {
    let fields = Fields(0, 3, 0, 0);
    for (host, number, place) in ELSEWHERE {
        refused(&host.code(fields), number, place);
        not_built(host.call, fields.operand(), number);
    }
}

#[test]
fn a_cut_operand_is_refused_ahead_of_its_fields() {
    for host in HOSTS {
        let place = host.ahead.len();
        let code = host.code(Fields(16, 3, 16, 0));
        for bytes in 1..13 {
            refused(&code[..place + bytes], 3, place);
        }
    }
}

#[test]
fn the_four_scales_are_accepted_and_built_to_their_bytes() {
    for scale in SCALES {
        let fields = Fields(15, scale, 15, -1);
        for host in HOSTS {
            let code = host.code(fields);
            assert_eq!(check_code(&code), Ok(()), "{code:x?}");
            let mut buffer = [0; 64];
            let mut builder = Builder::new(&mut buffer);
            assert_eq!((host.call)(&mut builder, fields.operand()), Ok(()));
            let operand = host.ahead.len()..host.ahead.len() + 13;
            assert_eq!(builder.bytes()[operand], fields.bytes());
        }
    }
}

const LAST: u64 = u64::MAX - 7;

/// Base, scale, index and offset, and the address: none outside the range.
const ADDRESSES: [(u64, i16, u64, i64, Option<u64>); 13] = [
    (4096, 1, 24, -8, Some(4112)),
    (4096, 2, 24, -8, Some(4136)),
    (4096, 4, 24, -8, Some(4184)),
    (4096, 8, 24, -8, Some(4280)),
    (0, 8, LAST / 8, 0, Some(LAST)),
    (8, 8, LAST / 8, 0, None),
    (8, 8, LAST / 8, -8, Some(LAST)),
    (0, 2, 1 << 63, 0, None),
    (0, 2, 1 << 63, -8, Some(LAST)),
    (0, 4, 1 << 62, -8, Some(LAST)),
    (u64::MAX, 8, u64::MAX, i64::MIN, None),
    (0, 1, 8, -8, Some(0)),
    (0, 1, 7, -8, None),
];

#[test]
fn addresses_by_the_four_scales() {
    let wild = Answer::Fault {
        number: 36,
        place: 0,
    };
    for (base, scale, index, offset, address) in ADDRESSES {
        // Rbx and Rcx are base and index, Rax is read or written.
        let operand = Fields(1, scale, 2, offset).bytes();
        let load = [&[0x01, 0x41, 0], &operand[..]].concat();
        let store = [&[0x01], &operand[..], &[0x41, 0]].concat();
        let mut regs = [0; 16];
        regs[..3].copy_from_slice(&[5, base, index]);
        // There is no other cell, so that a run that is done has found the address.
        let ended = |code: &[u8]| {
            let (answer, state, cell) = run_over(code, regs, address.unwrap_or(4096));
            (answer, state.regs[0], cell)
        };
        let (loaded, stored) = match address {
            Some(_) => ((Answer::Done, 6, 6), (Answer::Done, 5, 5)),
            None => ((wild, 5, 6), (wild, 5, 6)),
        };
        let row = (base, scale, index, offset);
        assert_eq!((ended(&load), ended(&store)), (loaded, stored), "{row:?}");
    }
}
