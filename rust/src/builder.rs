//! The builder: calls that write code records into a lent buffer and fill in their lengths.

use crate::kernel::{Comparison, Instruction};
use crate::raw;
use crate::record::Record;
use std::error::Error;
use std::fmt;

/// The room that the longest code needs.
pub const CODE_ROOM: usize = 16_384;

/// Why a call was not taken. It has no place. The first that holds is answered, in the order below; but [`NoRegister`] and
/// [`NoScale`] go together, and the first wrong field in the order of the record's bytes decides.
///
/// [`NoRegister`]: BuildRefusal::NoRegister
/// [`NoScale`]: BuildRefusal::NoScale
#[derive(Clone, Copy, Debug, PartialEq, Eq)]
pub enum BuildRefusal {
    /// 51: nothing is open to close, or the open part has not the code that it needs, or has the one that it takes,
    /// or the build is finished.
    Misfit,
    /// 4: a register or xmm number above 15.
    NoRegister,
    /// 7: the scale of an MIndex is none of 1, 2, 4 and 8.
    NoScale,
    /// 53: the code would be the 33rd level.
    TooDeep,
    /// 52: too many bytes for the buffer, or more than [`CODE_ROOM`].
    NoRoom,
}

impl BuildRefusal {
    /// Its number, as in C.
    pub fn number(self) -> u8 {
        match self {
            BuildRefusal::Misfit => 51,
            BuildRefusal::NoRegister => 4,
            BuildRefusal::NoScale => 7,
            BuildRefusal::TooDeep => 53,
            BuildRefusal::NoRoom => 52,
        }
    }
}

impl fmt::Display for BuildRefusal {
    fn fmt(&self, f: &mut fmt::Formatter<'_>) -> fmt::Result {
        let reason = match self {
            BuildRefusal::Misfit => "the open part does not take this call",
            BuildRefusal::NoRegister => "a register or xmm number above 15",
            BuildRefusal::NoScale => "the scale of an MIndex is none of 1, 2, 4 and 8",
            BuildRefusal::TooDeep => "the code would be the 33rd level",
            BuildRefusal::NoRoom => "too many bytes for the buffer, or more than 16,384",
        };
        write!(f, "refused {}: {reason}", self.number())
    }
}

impl Error for BuildRefusal {}

/// What the library keeps of a build besides its bytes.
#[derive(Debug, Default)]
struct Build {
    length: u16,
    depth: u16,
    parts: [u8; 32],
    fields: [u16; 32],
    starts: [u16; 32],
}

/// Builds one code at the front of a lent buffer. A length in it is 0 until the part that it counts is closed; the
/// bytes behind the build stay.
///
/// A refused call changes nothing, so building can go on after it. The builder keeps the buffer borrowed: every call
/// meets build and buffer as the call before left them, and so a finished code is one that
/// [`check_code`](crate::check_code) accepts.
///
/// ```no_run
/// use pokchrei::{BuildRefusal, Builder, Comparison::ONe, Instruction::Sub64, Operand::*, Reg};
///
/// /// While Rax differs from 0, Sub64 Rax 1.
/// fn count_down(buffer: &mut [u8]) -> Result<Option<&[u8]>, BuildRefusal> {
///     let mut kernel = Builder::new(buffer);
///     kernel.open_while(ONe(OReg(Reg::RAX), OConst(0)))?;
///     kernel.add(Sub64(OReg(Reg::RAX), OConst(1)))?;
///     kernel.close()?;
///     Ok(kernel.finish())
/// }
/// ```
#[derive(Debug)]
pub struct Builder<'a> {
    build: Build,
    buffer: &'a mut [u8],
}

impl<'a> Builder<'a> {
    /// An empty build.
    pub fn new(buffer: &'a mut [u8]) -> Builder<'a> {
        let mut build = Build::default();
        // SAFETY: the references are apart and live through the call, which keeps none of them.
        unsafe {
            raw::pokchrei_begin(
                &mut build.length,
                &mut build.depth,
                &mut build.parts,
                &mut build.fields,
                &mut build.starts,
            )
        };
        Builder { build, buffer }
    }

    /// Opens a Block: codes are added to it until it is closed.
    pub fn open_block(&mut self) -> Result<(), BuildRefusal> {
        self.call(raw::pokchrei_open_block)
    }

    /// Opens an IfElse, and its true part, which takes one code. To close that is to open the false part. At the 32nd
    /// level no code fits into it, and so it cannot be closed.
    pub fn open_if_else(&mut self, condition: Comparison) -> Result<(), BuildRefusal> {
        self.call_with(raw::pokchrei_open_if_else, condition.into())
    }

    /// Opens a While: its part takes one code. At the 32nd level none fits into it, and so it cannot be closed.
    pub fn open_while(&mut self, condition: Comparison) -> Result<(), BuildRefusal> {
        self.call_with(raw::pokchrei_open_while, condition.into())
    }

    /// Adds an instruction.
    pub fn add(&mut self, instruction: Instruction) -> Result<(), BuildRefusal> {
        self.call_with(raw::pokchrei_add, instruction.into())
    }

    /// Closes the innermost open part.
    pub fn close(&mut self) -> Result<(), BuildRefusal> {
        self.call(raw::pokchrei_close)
    }

    /// The bytes built so far.
    pub fn bytes(&self) -> &[u8] {
        &self.buffer[..usize::from(self.build.length)]
    }

    /// How many parts are open.
    pub fn depth(&self) -> usize {
        usize::from(self.build.depth)
    }

    /// Whether the outermost code is complete.
    pub fn is_finished(&self) -> bool {
        self.build.depth == 0 && self.build.length > 0
    }

    /// The code, if it is complete.
    pub fn finish(self) -> Option<&'a [u8]> {
        let length = usize::from(self.build.length);
        self.is_finished().then(|| &self.buffer[..length])
    }

    fn call(&mut self, function: raw::BuildCall) -> Result<(), BuildRefusal> {
        let build = &mut self.build;
        // SAFETY: what is lent lives through the call, which keeps none of it, and is borrowed apart from all else.
        let answer = unsafe {
            function(
                &mut build.length,
                &mut build.depth,
                &mut build.parts,
                &mut build.fields,
                &mut build.starts,
                self.buffer.as_mut_ptr(),
                self.buffer.len(),
            )
        };
        taken(answer)
    }

    fn call_with(&mut self, function: raw::RecordCall, record: Record) -> Result<(), BuildRefusal> {
        let build = &mut self.build;
        // SAFETY: as in `call`.
        let answer = unsafe {
            function(
                &mut build.length,
                &mut build.depth,
                &mut build.parts,
                &mut build.fields,
                &mut build.starts,
                self.buffer.as_mut_ptr(),
                self.buffer.len(),
                record.kind,
                &record.body,
                &record.operands,
                &record.bases,
                &record.indexes,
                &record.scales,
                &record.numbers,
                &record.offsets,
            )
        };
        taken(answer)
    }
}

fn taken(answer: u8) -> Result<(), BuildRefusal> {
    match answer {
        0 => Ok(()),
        4 => Err(BuildRefusal::NoRegister),
        7 => Err(BuildRefusal::NoScale),
        51 => Err(BuildRefusal::Misfit),
        52 => Err(BuildRefusal::NoRoom),
        53 => Err(BuildRefusal::TooDeep),
        // 2 is C's alone: a record made of an enum has the kinds that it should.
        _ => unreachable!("the library answered {answer}"),
    }
}
