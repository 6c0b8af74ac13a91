//! A proved evaluator of x64 kernels, called safely from Rust.
//!
//! The functions of the static library ask nothing of the contents of what they are lent, and slices and references
//! of Rust meet what C asks of pointers. So each wrapper is safe for every argument.

#![deny(unsafe_op_in_unsafe_fn)]

mod builder;
mod kernel;
mod raw;
mod record;

pub use builder::{BuildRefusal, Builder, CODE_ROOM};
pub use kernel::{Comparison, Instruction, Operand, Reg, Xmm};

/// Why code or cells were not accepted: document 01's number, with a place (code) or an index (cells).
///
/// Of code there is also request 2026-08's 7: the scale of an MIndex is none of 1, 2, 4 and 8. Its place is the scale's
/// first byte. An MIndex that is not cut short (3) is judged from left to right: first the base (4 where it is above 15),
/// then the scale (7), then the index (4).
#[derive(Clone, Copy, Debug, PartialEq, Eq)]
pub struct Refusal {
    pub number: u8,
    pub place: usize,
}

/// How a run ended.
#[derive(Clone, Copy, Debug, PartialEq, Eq)]
pub enum Answer {
    /// After the last code.
    Done,
    /// A check failed: the number of the first that did, and the place of its instruction or comparison. Sources are
    /// judged from left to right, then 33 to 35, then destinations; Mulx64's high one with the registers as the low
    /// half would leave them.
    ///
    /// - 31: a source, a shift amount or an operand of a comparison has no 64-bit cell at its address
    /// - 32: a destination is a constant or Rsp, or has no 64-bit cell at its address
    /// - 33: Shr64 or Shl64 by 64 or more
    /// - 34: Pslld or Psrld by 32 or more
    /// - 35: VPSLLDQ by another count than 4
    /// - 36: in place of 31 or 32, base + scale * index + offset, not taken modulo 2^64, is below 0 or above 2^64 - 1
    Fault { number: u8, place: usize },
    /// The step limit was used up and an instruction or a comparison came next: the number is 37, the place that of
    /// what came next, none of whose checks was made. State and cells are as they were before it.
    Stopped { number: u8, place: usize },
    /// A While at this place was met without fuel.
    Spent { place: usize },
    /// Code or cells were not accepted.
    Refused(Refusal),
}

/// Registers in state order (Rax, Rbx, Rcx, Rdx, Rsi, Rdi, Rbp, Rsp, R8 to R15), xmm words (word j of xmm i at
/// 4 * i + j) and flags.
#[derive(Clone, Debug, PartialEq, Eq)]
pub struct State {
    pub regs: [u64; 16],
    pub xmms: [u32; 64],
    pub flags: u64,
}

impl Default for State {
    fn default() -> State {
        State {
            regs: [0; 16],
            xmms: [0; 64],
            flags: 0,
        }
    }
}

/// Cells, lent: their values are written.
pub struct Cells<'a> {
    pub addresses: &'a [u64],
    pub tags: &'a [u8],
    pub values: &'a mut [u64],
}

/// Which flags Add64 and AddCarry64 leave. Both set carry by the sum. Every other instruction and every comparison does the
/// same by both, Adcx64 and Adox64 too, but a run may end otherwise by what reads these flags.
#[derive(Clone, Copy, Debug, Default, PartialEq, Eq)]
pub enum Evaluation {
    /// The old flags but for the carry, as F* has it. The job program has this one.
    #[default]
    Base,
    /// As on the board: the fill word but for the carry and for overflow, which tells whether destination + source, each
    /// read as two's complement, and in AddCarry64 + the old carry, is outside the range of an `i64`.
    Board,
}

/// What a caller names for a run beside code, cells and start.
#[derive(Clone, Copy, Debug, PartialEq, Eq)]
pub struct Setting {
    pub fill: u64,
    /// In `least_fuel` the cap.
    pub fuel: u32,
    /// The most steps that the run may make; `u64::MAX` is as good as none.
    pub limit: u64,
    pub evaluation: Evaluation,
}

/// The largest limit, F*'s evaluation, and no fuel: every loop is Spent.
impl Default for Setting {
    fn default() -> Setting {
        Setting {
            fill: 0,
            fuel: 0,
            limit: u64::MAX,
            evaluation: Evaluation::Base,
        }
    }
}

/// Whether the end of a run can hang on the fill word.
///
/// Carry (bit 0 of the flags) or overflow (bit 11) is open while it is a bit of the fill word, put there by what set it
/// last. A run begins with neither open. What completes opens and closes them so:
///
/// - every comparison, Sub64, Mul64, IMul64, And64, Shr64, Shl64 and Paddd: opens both
/// - Xor64 and Popcnt64: closes both
/// - Lzcnt64 and Tzcnt64: closes carry, opens overflow
/// - Add64 and AddCarry64: closes carry, and on the board overflow too
/// - Adcx64: closes carry
/// - Adox64: closes overflow
/// - every other instruction: changes neither
///
/// What fails a check, or is not tried, opens, closes and marks nothing. So a refused run is unmarked with nothing open.
///
/// Where `mark` is `None`, the run has under every other fill word, from the same start, the same answer, steps, registers,
/// xmm words, cells and watch; and carry and overflow are the same too, unless they are open at the end, where each is that
/// fill word's bit. The other bits of the flags, which no instruction reads, may differ. A mark promises nothing: the end
/// may differ, or not.
#[derive(Clone, Copy, Debug, PartialEq, Eq)]
pub struct Watch {
    /// The place of the first instruction that completed and added an open flag: AddCarry64 and Adcx64 add carry, Adox64
    /// overflow. Behind it flags open and close by the same rules.
    pub mark: Option<usize>,
    /// Whether carry is open at the end.
    pub carry_open: bool,
    /// Whether overflow is.
    pub overflow_open: bool,
}

/// What a run answers beside state and cells.
#[derive(Clone, Copy, Debug, PartialEq, Eq)]
pub struct End {
    pub answer: Answer,
    /// The instructions that were completed and the comparisons that passed their checks; 0 for a refusal.
    pub steps: u64,
    pub watch: Watch,
}

/// Checks code.
pub fn check_code(code: &[u8]) -> Result<(), Refusal> {
    let mut place = 0;
    // SAFETY: the slice and the reference live through the call, which keeps neither.
    let number = unsafe { raw::pokchrei_check_code(code.as_ptr(), code.len(), &mut place) };
    accepted(number, place)
}

/// Checks cells.
pub fn check_cells(addresses: &[u64], tags: &[u8], values: &[u64]) -> Result<(), Refusal> {
    let mut index = 0;
    // SAFETY: the slices and the reference live through the call, which keeps none of them.
    let number = unsafe {
        raw::pokchrei_check_cells(
            addresses.as_ptr(),
            addresses.len(),
            tags.as_ptr(),
            tags.len(),
            values.as_ptr(),
            values.len(),
            &mut index,
        )
    };
    accepted(number, index)
}

/// Runs code over lent cells, from a start to its exact end, both in `state` and the cells' values. A refused run
/// leaves both as they were.
///
/// Code of n codes whose Whiles are nested d deep makes at most n * (fuel + 1)^d steps. A run that is not Stopped has
/// the same end under every larger limit.
pub fn run(code: &[u8], cells: Cells<'_>, state: &mut State, setting: Setting) -> End {
    let (mut number, mut place, mut steps) = (0, 0, 0);
    let (mut marked, mut mark, mut opened) = (0, 0, 0);
    // SAFETY: what is lent lives through the call, which keeps none of it; what is written is borrowed apart from
    // all else.
    let kind = unsafe {
        raw::pokchrei_run(
            code.as_ptr(),
            code.len(),
            cells.addresses.as_ptr(),
            cells.addresses.len(),
            cells.tags.as_ptr(),
            cells.tags.len(),
            cells.values.as_mut_ptr(),
            cells.values.len(),
            &mut state.regs,
            &mut state.xmms,
            &mut state.flags,
            setting.fill,
            setting.fuel,
            setting.limit,
            number_of(setting.evaluation),
            &mut number,
            &mut place,
            &mut steps,
            &mut marked,
            &mut mark,
            &mut opened,
        )
    };
    End {
        answer: answer_of(kind, number, place),
        steps,
        watch: watch_of(marked, mark, opened),
    }
}

/// What a search for the least fuel comes to.
#[derive(Clone, Copy, Debug, PartialEq, Eq)]
pub enum Least {
    /// The least fuel at or below the cap with which the run is not Spent, and the answer of the run with it: Done, Fault or
    /// Stopped.
    Fuel { fuel: u32, answer: Answer },
    /// The run at the cap is Spent, at this place: the number is 61.
    CapSpent { number: u8, place: usize },
    /// Code or cells were not accepted.
    Refused(Refusal),
}

/// What a search for the least fuel answers beside state and cells.
#[derive(Clone, Copy, Debug, PartialEq, Eq)]
pub struct LeastEnd {
    pub least: Least,
    /// The steps of the run with the least fuel, or of the run at the cap where that is Spent; 0 for a refusal.
    pub steps: u64,
    /// The watch of that run.
    pub watch: Watch,
}

/// The least fuel at or below a cap, which is `setting.fuel`, with which the run of `code` is not Spent, and that run: its end
/// is left in `state` and the cells' values. Where there is no such fuel, the end of the run at the cap is left there, and a
/// refused search leaves both as they were.
///
/// Limit and evaluation are the same at every fuel. With less fuel the run is Spent, and with more it ends the same. A While
/// needs fuel for each test, also for the last, where its comparison does not hold, and for one whose comparison is not made,
/// since its check fails or the limit is used up: so a smaller limit can lower the answer. What tests no loop needs 0.
///
/// It makes one run, at the cap. A kernel that never ends runs on until cap or limit ends it: the limit is what bounds a
/// search with a large cap.
pub fn least_fuel(code: &[u8], cells: Cells<'_>, state: &mut State, setting: Setting) -> LeastEnd {
    let mut fuel = 0;
    let (mut number, mut place, mut steps) = (0, 0, 0);
    let (mut marked, mut mark, mut opened) = (0, 0, 0);
    // SAFETY: as in `run`.
    let kind = unsafe {
        raw::pokchrei_least_fuel(
            code.as_ptr(),
            code.len(),
            cells.addresses.as_ptr(),
            cells.addresses.len(),
            cells.tags.as_ptr(),
            cells.tags.len(),
            cells.values.as_mut_ptr(),
            cells.values.len(),
            &mut state.regs,
            &mut state.xmms,
            &mut state.flags,
            setting.fill,
            setting.fuel,
            setting.limit,
            number_of(setting.evaluation),
            &mut fuel,
            &mut number,
            &mut place,
            &mut steps,
            &mut marked,
            &mut mark,
            &mut opened,
        )
    };
    LeastEnd {
        least: least_of(kind, fuel, number, place),
        steps,
        watch: watch_of(marked, mark, opened),
    }
}

/// The room that the text of a job is given; it needs no more.
pub const JOB_ROOM: usize = 65_536;

/// What the job program prints of a job's bytes.
pub fn job<'a>(input: &[u8], out: &'a mut [u8; JOB_ROOM]) -> &'a [u8] {
    // SAFETY: the slice and the array live through the call, which keeps neither.
    let length = unsafe { raw::pokchrei_job(input.as_ptr(), input.len(), out) };
    &out[..length]
}

/// The C interface's number of an evaluation.
fn number_of(evaluation: Evaluation) -> u8 {
    match evaluation {
        Evaluation::Base => 0,
        Evaluation::Board => 1,
    }
}

/// Of the C interface's kind, with the number and place that belong to it.
fn answer_of(kind: u8, number: u8, place: usize) -> Answer {
    match kind {
        0 => Answer::Done,
        1 => Answer::Fault { number, place },
        2 => Answer::Spent { place },
        4 => Answer::Stopped { number, place },
        _ => Answer::Refused(Refusal { number, place }),
    }
}

/// The same of a search for the least fuel.
fn least_of(kind: u8, fuel: u32, number: u8, place: usize) -> Least {
    match kind {
        3 => Least::Refused(Refusal { number, place }),
        5 => Least::CapSpent { number, place },
        _ => Least::Fuel {
            fuel,
            answer: answer_of(kind, number, place),
        },
    }
}

/// Of the C interface's numbers: bit 0 of `opened` is carry, bit 1 overflow.
fn watch_of(marked: u8, mark: usize, opened: u8) -> Watch {
    Watch {
        mark: (marked != 0).then_some(mark),
        carry_open: opened & 1 != 0,
        overflow_open: opened & 2 != 0,
    }
}

fn accepted(number: u8, place: usize) -> Result<(), Refusal> {
    match number {
        0 => Ok(()),
        _ => Err(Refusal { number, place }),
    }
}
