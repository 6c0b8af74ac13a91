//! The instructions on 64-bit words at the edges of the widths, and shifts by
//! every kind of amount.

use super::stage::*;
use crate::build::*;
use crate::job::Job;
use crate::tree::Instruction::*;
use crate::tree::*;

const EDGES: [u64; 6] = [0, 1, 1 << 31, 1 << 32, 1 << 63, TOP];
const RBX: Reg = 1;

/// A register for each edge word, the first of six.
const FIRST: Reg = 8;

fn words(codes: Vec<Instruction>) -> Job {
    let job = bare(block(codes.into_iter().map(ins).collect()));
    let hold = |job: Job, (i, word)| job.reg(FIRST + i as Reg, word);
    EDGES.into_iter().enumerate().fold(job, hold)
}

/// The work on each edge word, the `last` one last: its flags are seen.
fn each(last: usize, work: impl Fn(Operand) -> Instruction) -> Job {
    let order = (1..=EDGES.len()).map(|i| FIRST + ((last + i) % EDGES.len()) as Reg);
    words(order.map(|r| work(reg(r))).collect())
}

fn pairs() -> Vec<Job> {
    let twos = [
        Add64, AddCarry64, Adcx64, Adox64, Sub64, IMul64, Xor64, And64,
    ];
    let mut jobs = Vec::new();
    for (turn, by) in EDGES.into_iter().enumerate() {
        let by = number(by);
        jobs.extend(twos.map(|two| each(turn, |word| two(word, by))));
        jobs.push(each(turn, |word| AddLea64(word, word, by)));
        jobs.push(products(|word| vec![Mov64(reg(RAX), word), Mul64(by)], RAX));
        let wide = |word| vec![Mov64(reg(RDX), word), Mulx64(reg(RDX), reg(RBX), by)];
        jobs.push(products(wide, RBX));
    }
    jobs
}

/// Each product's low half comes back to its register, the high half, which
/// the work leaves in Rdx, goes to a cell.
fn products(work: impl Fn(Operand) -> Vec<Instruction>, low: Reg) -> Job {
    let mut codes = Vec::new();
    for i in 0..EDGES.len() {
        let word = reg(FIRST + i as Reg);
        codes.extend(work(word));
        codes.extend([Mov64(word, reg(low)), Mov64(at(8 * i as u64), reg(RDX))]);
    }
    let cells = 0..EDGES.len() as u64;
    cells.fold(words(codes), |job, i| job.cell(8 * i, 64, i))
}

fn shifts() -> Vec<Job> {
    let mut jobs = Vec::new();
    for by in [0, 1, 31, 32, 33, 63] {
        jobs.extend([Shr64, Shl64].map(|shift| each(0, |word| shift(word, number(by)))));
    }
    for by in [64, 65, 255, 1 << 32, 1 << 63, TOP] {
        jobs.extend([Shr64, Shl64].map(|shift| each(0, |word| shift(word, number(by)))));
        jobs.push(stage(ins(Shr64(reg(TARGET), reg(SMALL)))).reg(SMALL, by));
    }
    let own = [Shr64(reg(TARGET), reg(TARGET)), Shl64(at(CELL), at(CELL))];
    jobs.extend(own.map(|shift| stage(ins(shift)).reg(TARGET, 63)));
    jobs
}

/// Each register read and, but for Rsp, written.
fn registers() -> Vec<Job> {
    let written = |r| bare(ins(Mov64(reg(r), reg((r + 5) % 16))));
    (0..16)
        .map(|r| written(r).reg((r + 5) % 16, TOP).reg(r, 3))
        .collect()
}

pub fn jobs() -> Vec<Job> {
    let mut jobs = pairs();
    jobs.extend(shifts());
    jobs.extend(registers());
    jobs
}
