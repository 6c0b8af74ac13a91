//! Jobs, in the job program's bytes: a kernel written as one, and stored ones, over which the three evaluators have to
//! agree on every kind of end.

use crate::bytes::{length_at, u32_at, u64_at};
use crate::ends::{self, End};
use crate::kernels::Kernel;
use pokchrei::{Answer, Evaluation, Setting, State};

const FILL: usize = 4;
const FLAGS: usize = 12;
const REGS: usize = 20;
const XMMS: usize = 148;
const COUNT: usize = 404;
const CELLS: usize = 406;
const CELL: usize = 17;

pub fn written(kernel: &Kernel) -> Vec<u8> {
    let mut job = kernel.setting.fuel.to_le_bytes().to_vec();
    job.extend(kernel.setting.fill.to_le_bytes());
    job.extend(kernel.state.flags.to_le_bytes());
    job.extend(kernel.state.regs.iter().flat_map(|word| word.to_le_bytes()));
    job.extend(kernel.state.xmms.iter().flat_map(|word| word.to_le_bytes()));
    job.extend((kernel.addresses.len() as u16).to_le_bytes());
    for (i, address) in kernel.addresses.iter().enumerate() {
        job.extend(address.to_le_bytes());
        job.push(kernel.tags[i]);
        job.extend(kernel.values[i].to_le_bytes());
    }
    job.extend(&kernel.code);
    job
}

/// The kernel of a job, unless it is cut short.
fn read(name: &str, job: &[u8]) -> Option<Kernel> {
    let count = job.get(COUNT..CELLS)?;
    let count = usize::from(u16::from_le_bytes([count[0], count[1]]));
    let code = CELLS + CELL * count;
    let cells: Vec<&[u8]> = job.get(CELLS..code)?.chunks_exact(CELL).collect();
    Some(Kernel {
        name: name.to_string(),
        code: job[code..].to_vec(),
        state: State {
            regs: std::array::from_fn(|i| u64_at(job, REGS + 8 * i)),
            xmms: std::array::from_fn(|i| u32_at(job, XMMS + 4 * i)),
            flags: u64_at(job, FLAGS),
        },
        setting: Setting {
            fill: u64_at(job, FILL),
            fuel: u32_at(job, 0),
            limit: u64::MAX,
            evaluation: Evaluation::Base,
        },
        addresses: cells.iter().map(|cell| u64_at(cell, 0)).collect(),
        tags: cells.iter().map(|cell| cell[8]).collect(),
        values: cells.iter().map(|cell| u64_at(cell, 9)).collect(),
    })
}

/// Takes a job or a text, which stands behind its length, off the front of a stored set.
fn part<'a>(set: &mut &'a [u8]) -> &'a [u8] {
    let (part, rest) = set[4..].split_at(length_at(set, 0));
    *set = rest;
    part
}

/// Behind the line that marks a set of last year's jobs.
fn behind_line(set: &[u8]) -> Option<&[u8]> {
    let text = set.strip_prefix(b"The first text behind each of these jobs ")?;
    let end = text.iter().position(|&byte| byte == b'\n')?;
    Some(&text[end + 1..])
}

/// The jobs of a stored set, each with its text. Those of last year's have the text of last year's rule first.
fn stored(set: &[u8]) -> Vec<(&[u8], &[u8])> {
    let last_years = behind_line(set);
    let mut rest = last_years.unwrap_or(set);
    let mut jobs = Vec::new();
    while !rest.is_empty() {
        let job = part(&mut rest);
        if last_years.is_some() {
            part(&mut rest);
        }
        jobs.push((job, part(&mut rest)));
    }
    jobs
}

/// The steps that a text tells, in its second line. That of a refusal has none.
fn told(text: &[u8]) -> Option<u64> {
    let text = std::str::from_utf8(text).expect("a text");
    let line = text.lines().nth(1)?;
    let steps = line.strip_prefix("steps ").expect("a line of steps");
    Some(steps.parse().expect("a number of steps"))
}

/// The end of a stored job by the proved evaluator, unless it is refused.
fn accepted(kernel: Option<&Kernel>) -> Option<End> {
    let end = ends::proved(kernel?);
    let refused = matches!(end.answer, Answer::Refused(_));
    (!refused).then_some(end)
}

/// Whether a run ends under a limit as the run without one says: a limit below its steps stops it, and one of just its
/// steps leaves its end as it is, but that a fault is not come to.
fn follows(limited: &End, limit: u64, free: &End) -> bool {
    if limit < free.steps {
        let stopped = matches!(limited.answer, Answer::Stopped { number: 37, .. });
        return stopped && limited.steps == limit;
    }
    let mut last = free.clone();
    if let Answer::Fault { place, .. } = free.answer {
        last.answer = Answer::Stopped { number: 37, place };
    }
    *limited == last
}

/// Runs a job again under limits of 0, of one step less than it makes, and of its steps; answers how many these are, of
/// which equal ones count once.
fn under_limits(mut kernel: Kernel, free: &End) -> usize {
    let mut limits = vec![0, free.steps.saturating_sub(1), free.steps];
    limits.dedup();
    for &limit in &limits {
        kernel.setting.limit = limit;
        let limited = ends::proved(&kernel);
        ends::hold(&kernel, &limited);
        let name = &kernel.name;
        assert!(
            follows(&limited, limit, free),
            "{name}: {limited:?} under {limit}, and {free:?} without a limit"
        );
    }
    limits.len()
}

/// Runs a job again on the board, and answers whether that ends otherwise.
fn on_board(mut kernel: Kernel, base: &End) -> bool {
    kernel.setting.evaluation = Evaluation::Board;
    let end = ends::proved(&kernel);
    ends::hold(&kernel, &end);
    end != *base
}

/// Holds both interpreters to the proved evaluator on every stored job that is not refused: they take no other. The
/// steps are held to the stored text, and the ends under a limit to the end without one.
pub fn agree(path: &str) {
    let set = std::fs::read(path).expect("a stored set of jobs");
    let (mut compared, mut refused, mut runs, mut other) = (0, 0, 0, 0);
    for (index, (job, text)) in stored(&set).into_iter().enumerate() {
        let name = format!("{path}, job {index}");
        let kernel = read(&name, job);
        let end = accepted(kernel.as_ref());
        assert_eq!(end.as_ref().map(|end| end.steps), told(text), "{name}");
        match (kernel, end) {
            (Some(kernel), Some(end)) => {
                ends::hold(&kernel, &end);
                compared += 1;
                runs += under_limits(kernel.clone(), &end);
                other += usize::from(on_board(kernel, &end));
            }
            _ => refused += 1,
        }
    }
    println!("{path}: {compared} jobs end alike, {refused} are refused; {runs} runs under a limit end alike");
    println!("    on the board the {compared} jobs end alike too, {other} of them otherwise than by the base");
}
