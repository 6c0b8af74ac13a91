//! The builder of request 2026-01 through the wrapper.

use pokchrei::Comparison::*;
use pokchrei::Instruction::*;
use pokchrei::Operand::{self, *};
use pokchrei::{check_code, run, Answer, Cells, Setting, State};
use pokchrei::{BuildRefusal, Builder, Comparison, Instruction, Reg, Xmm, CODE_ROOM};

const RAX: Operand = OReg(Reg::RAX);
const RBX: Operand = OReg(Reg::RBX);

/// 3 bytes: Pxor xmm0, xmm1.
const XOR: Instruction = Pxor(Xmm(0), Xmm(1));

/// While Rax differs from 0, Sub64 Rax 1.
const P14: [u8; 29] = [
    0x22, 12, 0, 0, 0, // While, the length of its part
    0x31, 0x41, 0, 0x40, 0, 0, 0, 0, 0, 0, 0, 0, // ONe Rax 0
    0x07, 0x41, 0, 0x40, 1, 0, 0, 0, 0, 0, 0, 0, // Sub64 Rax 1
];

fn count_down(buffer: &mut [u8]) -> Result<Option<&[u8]>, BuildRefusal> {
    let mut kernel = Builder::new(buffer);
    kernel.open_while(ONe(RAX, OConst(0)))?;
    kernel.add(Sub64(RAX, OConst(1)))?;
    kernel.close()?;
    Ok(kernel.finish())
}

/// The code of one instruction.
fn built(instruction: Instruction) -> Vec<u8> {
    let mut buffer = [0; 64];
    let mut builder = Builder::new(&mut buffer);
    assert_eq!(builder.add(instruction), Ok(()), "{instruction:?}");
    builder.finish().expect("it is complete").to_vec()
}

fn equal() -> Comparison {
    OEq(RAX, RBX)
}

#[test]
fn p14_is_built_to_the_bytes_written_by_hand() {
    let mut buffer = [0; 29];
    assert_eq!(count_down(&mut buffer), Ok(Some(&P14[..])));
    assert_eq!(check_code(&P14), Ok(()));
}

#[test]
fn p14_runs() {
    let mut buffer = [0; CODE_ROOM];
    let code = count_down(&mut buffer).unwrap().unwrap();
    for (fuel, end) in [(4, Answer::Done), (3, Answer::Spent { place: 0 })] {
        let mut state = State::default();
        state.regs[0] = 3;
        let cells = Cells {
            addresses: &[],
            tags: &[],
            values: &mut [],
        };
        let setting = Setting {
            fuel,
            ..Setting::default()
        };
        let answer = run(code, cells, &mut state, setting).answer;
        assert_eq!((answer, state.regs[0]), (end, 0));
    }
}

#[test]
fn lengths_are_0_until_what_they_count_is_closed() -> Result<(), BuildRefusal> {
    let mut buffer = [0xee; 40];
    let mut builder = Builder::new(&mut buffer);
    let head = [0x21, 0, 0, 0, 0, 0, 0, 0, 0, 0x30, 0x41, 0, 0x41, 1];
    builder.open_if_else(equal())?;
    assert_eq!(builder.bytes(), head);
    builder.open_block()?;
    builder.add(XOR)?;
    builder.add(XOR)?;
    let block = [0x20, 0, 0, 0, 0, 0x10, 0, 1, 0x10, 0, 1];
    assert_eq!(builder.bytes(), [&head[..], &block].concat());
    builder.close()?;
    assert_eq!((builder.bytes()[1], builder.bytes()[15]), (0, 6));
    builder.close()?;
    assert_eq!((builder.bytes()[1], builder.bytes()[5]), (11, 0));
    assert_eq!(builder.depth(), 1, "the false part");
    builder.add(Mul64(RAX))?;
    assert_eq!((builder.is_finished(), builder.bytes()[5]), (false, 0));
    builder.close()?;
    let code = builder.finish().expect("it is complete");
    assert_eq!((code.len(), code[1], code[5], code[15]), (28, 11, 3, 6));
    assert_eq!(check_code(code), Ok(()));
    assert_eq!(buffer[28..], [0xee; 12], "behind the build");
    Ok(())
}

#[test]
fn finished_when_the_outermost_code_is_complete() -> Result<(), BuildRefusal> {
    let mut buffer = [0; 8];
    assert_eq!(Builder::new(&mut buffer).finish(), None);
    let mut builder = Builder::new(&mut buffer);
    assert!(!builder.is_finished());
    builder.open_block()?;
    assert!(!builder.is_finished());
    builder.close()?;
    assert!(builder.is_finished());
    assert_eq!(builder.finish(), Some(&[0x20, 0, 0, 0, 0][..]));
    Ok(())
}

/// An operand with a register above 15, and one with a scale that there is not.
const WRONG: [Operand; 2] = [
    OReg(Reg(16)),
    MIndex {
        base: Reg::RAX,
        scale: 3,
        index: Reg::RAX,
        offset: 0,
    },
];

/// Every call that adds a code, with each of the wrong operands where there can be one.
fn additions(builder: &mut Builder<'_>) -> Vec<Result<(), BuildRefusal>> {
    let mut answers = vec![builder.open_block()];
    for wrong in WRONG {
        answers.extend([
            builder.open_if_else(OEq(wrong, RAX)),
            builder.open_while(OEq(RAX, wrong)),
            builder.add(Mul64(wrong)),
        ]);
    }
    answers
}

/// What they answer where the wrong operands count for more than this refusal, which the Block gets.
fn behind_fields(refusal: BuildRefusal) -> Vec<Result<(), BuildRefusal>> {
    let (absent, unscaled) = (BuildRefusal::NoRegister, BuildRefusal::NoScale);
    let numbers = [
        refusal, absent, absent, absent, unscaled, unscaled, unscaled,
    ];
    numbers.map(Err).to_vec()
}

#[test]
fn misfits() -> Result<(), BuildRefusal> {
    let misfit = Err(BuildRefusal::Misfit);
    let mut buffer = [0; 64];
    let mut builder = Builder::new(&mut buffer);
    assert_eq!(builder.close(), misfit, "nothing is open");
    builder.open_if_else(equal())?;
    assert_eq!(builder.close(), misfit, "the true part lacks its code");
    builder.add(XOR)?;
    assert_eq!(additions(&mut builder), [misfit; 7], "a second code");
    builder.close()?;
    assert_eq!(builder.close(), misfit, "the false part lacks its code");
    builder.open_while(equal())?;
    assert_eq!(builder.close(), misfit, "the While's part lacks its code");
    builder.add(XOR)?;
    assert_eq!(additions(&mut builder), [misfit; 7], "a second code");
    builder.close()?;
    assert_eq!(additions(&mut builder), [misfit; 7], "the While is one");
    builder.close()?;
    assert!(builder.is_finished());
    Ok(())
}

#[test]
fn nothing_is_taken_after_the_finish() -> Result<(), BuildRefusal> {
    let misfit = Err(BuildRefusal::Misfit);
    let mut buffer = [0; 3];
    let mut builder = Builder::new(&mut buffer);
    builder.add(XOR)?;
    assert_eq!(additions(&mut builder), [misfit; 7], "ahead of 4, 7 and 52");
    assert_eq!(builder.close(), misfit);
    assert_eq!(builder.finish(), Some(&[0x10, 0, 1][..]));
    Ok(())
}

#[test]
fn refused_calls_change_nothing() -> Result<(), BuildRefusal> {
    let mut buffer = [0xee; 30];
    let mut builder = Builder::new(&mut buffer);
    let absent = Err(BuildRefusal::NoRegister);
    assert_eq!(builder.open_while(ONe(RAX, OReg(Reg(99)))), absent);
    builder.open_while(ONe(RAX, OConst(0)))?;
    assert_eq!(builder.close(), Err(BuildRefusal::Misfit));
    assert_eq!(builder.add(Sub64(RAX, OReg(Reg(99)))), absent);
    let long = Mulx64(RAX, RAX, OConst(1));
    assert_eq!(builder.add(long), Err(BuildRefusal::NoRoom));
    builder.add(Sub64(RAX, OConst(1)))?;
    assert_eq!(builder.add(long), Err(BuildRefusal::Misfit));
    builder.close()?;
    assert_eq!(builder.close(), Err(BuildRefusal::Misfit));
    assert_eq!(builder.finish(), Some(&P14[..]));
    assert_eq!(buffer[29..], [0xee]);
    Ok(())
}

#[test]
fn numbers_above_15() {
    let (absent, xmm) = (Reg(16), Xmm(16));
    let at_index = |base, index| MIndex {
        base,
        scale: 1,
        index,
        offset: 0,
    };
    let operands = [
        OReg(absent),
        MReg(Reg(255), 0),
        at_index(absent, Reg::RAX),
        at_index(Reg::RAX, absent),
    ];
    let mut refused = vec![
        Paddd(xmm, Xmm(0)),
        Paddd(Xmm(0), xmm),
        Pslld(xmm, 0),
        Pshufd(Xmm(0), xmm, 0),
        Pextrq(RAX, xmm, 0),
        Pinsrd(xmm, RAX, 0),
    ];
    refused.extend(operands.map(|operand| AddLea64(RAX, RAX, operand)));
    for instruction in refused {
        let answer = Builder::new(&mut []).add(instruction);
        assert_eq!(answer, Err(BuildRefusal::NoRegister), "{instruction:?}");
    }
    let taken = built(Pshufd(Xmm(15), Xmm(15), 255));
    assert_eq!(taken, [0x13, 15, 15, 255], "an imm8 is no number of an xmm");
}

#[test]
fn a_while_at_the_last_level_takes_nothing() -> Result<(), BuildRefusal> {
    let mut buffer = [0; CODE_ROOM];
    let mut builder = Builder::new(&mut buffer);
    for _ in 0..31 {
        builder.open_block()?;
    }
    builder.open_while(ONe(RAX, OConst(0)))?;
    let deep = BuildRefusal::TooDeep;
    assert_eq!(builder.add(Sub64(RAX, OConst(1))), Err(deep));
    let expected = behind_fields(deep);
    assert_eq!(additions(&mut builder), expected, "4 and 7 are ahead of 53");
    assert_eq!(builder.close(), Err(BuildRefusal::Misfit));
    assert_eq!(builder.depth(), 32);
    Ok(())
}

#[test]
fn depth_33() -> Result<(), BuildRefusal> {
    let mut buffer = [0; 160];
    let mut builder = Builder::new(&mut buffer);
    for _ in 0..32 {
        builder.open_block()?;
    }
    let deep = BuildRefusal::TooDeep;
    assert_eq!(builder.add(XOR), Err(deep), "ahead of 52");
    let expected = behind_fields(deep);
    assert_eq!(
        additions(&mut builder),
        expected,
        "4 and 7 are ahead of both"
    );
    for _ in 0..32 {
        builder.close()?;
    }
    assert_eq!(check_code(builder.finish().expect("closed")), Ok(()));
    Ok(())
}

#[test]
fn room_in_the_buffer() -> Result<(), BuildRefusal> {
    let mut buffer = [0xee; 10];
    let mut builder = Builder::new(&mut buffer);
    builder.open_block()?;
    builder.add(XOR)?;
    assert_eq!(builder.add(XOR), Err(BuildRefusal::NoRoom));
    assert_eq!(builder.open_while(equal()), Err(BuildRefusal::NoRoom));
    let expected = behind_fields(BuildRefusal::NoRoom);
    assert_eq!(additions(&mut builder), expected, "4 and 7 are ahead of 52");
    assert_eq!(builder.bytes(), [0x20, 0, 0, 0, 0, 0x10, 0, 1]);
    builder.close()?;
    assert_eq!(buffer, [0x20, 3, 0, 0, 0, 0x10, 0, 1, 0xee, 0xee]);
    Ok(())
}

#[test]
fn room_for_16_384_bytes() -> Result<(), BuildRefusal> {
    let mut buffer = [0; CODE_ROOM + 3];
    let mut builder = Builder::new(&mut buffer);
    builder.open_block()?;
    for _ in 0..5_458 {
        builder.add(XOR)?;
    }
    builder.open_block()?;
    assert_eq!(builder.bytes().len(), CODE_ROOM);
    assert_eq!(builder.add(XOR), Err(BuildRefusal::NoRoom));
    builder.close()?;
    builder.close()?;
    assert_eq!(check_code(builder.finish().expect("closed")), Ok(()));
    Ok(())
}

#[test]
fn a_refusal_has_its_number() {
    use BuildRefusal::*;
    let numbers = [Misfit, NoRegister, NoScale, TooDeep, NoRoom].map(BuildRefusal::number);
    assert_eq!(numbers, [51, 4, 7, 53, 52]);
    let text = "refused 51: the open part does not take this call";
    assert_eq!(Misfit.to_string(), text);
}

/// The instructions in the order of their kinds, with the bytes of body and operands behind each kind.
fn instructions() -> [(Instruction, &'static [u8]); 27] {
    let (x, y) = (Xmm(2), Xmm(3));
    let one = OReg(Reg::RBX);
    let two = OReg(Reg::RCX);
    let three = OReg(Reg::RDX);
    let (ones, twos): (&[u8], &[u8]) = (&[0x41, 1], &[0x41, 1, 0x41, 2]);
    let threes: &[u8] = &[0x41, 1, 0x41, 2, 0x41, 3];
    [
        (Mov64(one, two), twos),
        (Add64(one, two), twos),
        (AddLea64(one, two, three), threes),
        (AddCarry64(one, two), twos),
        (Adcx64(one, two), twos),
        (Adox64(one, two), twos),
        (Sub64(one, two), twos),
        (Mul64(one), ones),
        (Mulx64(one, two, three), threes),
        (IMul64(one, two), twos),
        (Xor64(one, two), twos),
        (And64(one, two), twos),
        (Shr64(one, two), twos),
        (Shl64(one, two), twos),
        (Paddd(x, y), &[2, 3]),
        (Pxor(x, y), &[2, 3]),
        (Pslld(x, 31), &[2, 31]),
        (Psrld(x, 31), &[2, 31]),
        (Pshufd(x, y, 27), &[2, 3, 27]),
        (Pcmpeqd(x, y), &[2, 3]),
        (Pextrq(one, x, 5), &[2, 5, 0x41, 1]),
        (Pinsrd(x, one, 5), &[2, 5, 0x41, 1]),
        (Pinsrq(x, one, 5), &[2, 5, 0x41, 1]),
        (VPSLLDQ(x, y, 4), &[2, 3, 4]),
        (Popcnt64(one, two), twos),
        (Lzcnt64(one, two), twos),
        (Tzcnt64(one, two), twos),
    ]
}

#[test]
fn every_instruction() {
    for (i, (instruction, rest)) in instructions().into_iter().enumerate() {
        let code = built(instruction);
        let expected = [&[i as u8 + 1], rest].concat();
        assert_eq!(code, expected, "{instruction:?}");
        assert_eq!(check_code(&code), Ok(()), "{instruction:?}");
    }
}

#[test]
fn every_comparison() -> Result<(), BuildRefusal> {
    for (i, compare) in [OEq, ONe, OLe, OGe, OLt, OGt].into_iter().enumerate() {
        let mut buffer = [0; 16];
        let mut builder = Builder::new(&mut buffer);
        builder.open_while(compare(RBX, RAX))?;
        builder.add(XOR)?;
        builder.close()?;
        let code = builder.finish().expect("closed");
        assert_eq!(code[5..10], [0x30 + i as u8, 0x41, 1, 0x41, 0]);
        assert_eq!(check_code(code), Ok(()));
    }
    Ok(())
}

#[test]
fn every_operand() {
    let index = MIndex {
        base: Reg::RBX,
        scale: 8,
        index: Reg::R15,
        offset: 258,
    };
    let operands: [(Operand, &[u8]); 5] = [
        (OConst(1), &[0x40, 1, 0, 0, 0, 0, 0, 0, 0]),
        (OReg(Reg::R8), &[0x41, 8]),
        (MConst(4096), &[0x42, 0, 16, 0, 0, 0, 0, 0, 0]),
        (
            MReg(Reg::RDI, -1),
            &[0x43, 5, 255, 255, 255, 255, 255, 255, 255, 255],
        ),
        (index, &[0x44, 1, 8, 0, 15, 2, 1, 0, 0, 0, 0, 0, 0]),
    ];
    for (operand, bytes) in operands {
        let code = built(AddLea64(operand, RAX, operand));
        assert_eq!(code, [&[0x03], bytes, &[0x41, 0], bytes].concat());
        assert_eq!(check_code(&code), Ok(()));
    }
}
