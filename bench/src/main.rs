//! Times the proved evaluator, through its static library, beside two interpreters of the same bytes, and measures its
//! stack.
//!
//!     bench                  the kernels, the search for their least fuel beside a run, the growth of cost and the stack, as
//!                            lines of fields divided by tabs
//!     bench quick            the same with fewer steps
//!     bench agree FILE...    holds the interpreters to the proved evaluator on stored jobs, with a limit and without, and
//!                            on the board
//!     bench write FOLDER     the kernels as jobs, for beside.c; prints their files and steps
//!     bench stack N          one deep run of N rounds at the largest fuel

// Only what calls the C library may use it: the interpreters are safe Rust.
#![deny(unsafe_code)]

mod bytes;
#[allow(unsafe_code)]
mod clock;
mod decoded;
mod encode;
mod ends;
mod jobs;
mod kernels;
mod machine;
#[allow(unsafe_code)]
mod painted;
mod plain;
mod stack;
mod watch;

use ends::End;
use kernels::Kernel;
use pokchrei::Answer;

const SHORT: u64 = 500_000;

/// In the order of their columns.
const EVALUATORS: [fn(&Kernel) -> End; 3] = [ends::proved, ends::plain, ends::decoded];

/// Times of the three, in nanoseconds a step. They take turns, so that a change of the machine's pace meets them all.
fn compared(kernel: &Kernel, times: u32) -> [f64; 3] {
    let end = ends::proved(kernel);
    assert_eq!(end.answer, Answer::Done, "{}", kernel.name);
    ends::hold(kernel, &end);
    let mut best = [f64::INFINITY; 3];
    for _ in 0..times {
        for (best, evaluate) in best.iter_mut().zip(EVALUATORS) {
            *best = best.min(clock::least(1, || drop(evaluate(kernel))));
        }
    }
    best.map(|time| time / end.steps as f64)
}

fn line(group: &str, size: u64, kernel: &Kernel, times: u32) {
    let [proved, plain, decoded] = compared(kernel, times);
    let name = &kernel.name;
    println!("{group}\t{name}\t{size}\t{proved:.4}\t{plain:.4}\t{decoded:.4}");
}

/// The kernels that a job can hold: those of the base's evaluation.
fn timed(steps: u64) -> [Kernel; 8] {
    [
        kernels::straight(steps),
        kernels::mixed(steps),
        kernels::deep(steps),
        kernels::memory(steps, 16),
        kernels::memory(steps, 1024),
        kernels::scattered(steps, 1024),
        kernels::counts(steps),
        kernels::sums(steps),
    ]
}

fn kernels(steps: u64, times: u32) {
    let board = kernels::on_board(kernels::sums(steps));
    for kernel in timed(steps).iter().chain([&board]) {
        line("kernel", ends::proved(kernel).steps, kernel, times);
    }
}

/// The search for the least fuel beside a run, in turns, with the same number as cap and as fuel.
fn searches(steps: u64, times: u32) {
    for kernel in timed(steps) {
        let (fuel, end) = ends::searched(&kernel);
        assert_eq!(end, ends::proved(&kernel), "{}", kernel.name);
        let (mut run, mut search) = (f64::INFINITY, f64::INFINITY);
        for _ in 0..times {
            run = run.min(clock::least(1, || drop(ends::proved(&kernel))));
            search = search.min(clock::least(1, || drop(ends::searched(&kernel))));
        }
        let [run, search] = [run, search].map(|time| time / end.steps as f64);
        println!("search\t{}\t{fuel}\t{run:.4}\t{search:.4}\t-", kernel.name);
    }
}

fn write(folder: &str, steps: u64) {
    for kernel in &timed(steps) {
        let path = format!("{folder}/{}", kernel.name.replace([' ', ','], ""));
        std::fs::write(&path, jobs::written(kernel)).expect("a folder to write to");
        println!("{path} {}", ends::proved(kernel).steps);
    }
}

/// Growth with steps, up to `most`; with cells and depth, in many short runs, of which the least tells most.
fn growth(most: u64, times: u32) {
    let mut steps = 100_000;
    while steps <= most {
        let turns = times.min((4 * most / steps) as u32 + 1);
        line("steps", steps, &kernels::straight(steps), turns);
        steps *= 10;
    }
    for power in 0..=10 {
        let count = 1 << power;
        line("cells", count, &kernels::memory(SHORT, count), times);
    }
    for power in 2..=10 {
        let count = 1 << power;
        line("gaps", count, &kernels::scattered(SHORT, count), times);
    }
    for depth in [3, 4, 8, 16, 24, 32] {
        line("depth", depth, &kernels::nested(SHORT, depth), times);
    }
}

/// Checking code: nanoseconds a byte. The interpreters check nothing.
fn checking(times: u32) {
    const ROUNDS: usize = 200;
    for kib in [1, 2, 4, 8, 16] {
        let code = kernels::code_of(kib * 1024);
        assert_eq!(pokchrei::check_code(&code), Ok(()));
        let work = || (0..ROUNDS).for_each(|_| assert!(pokchrei::check_code(&code).is_ok()));
        let byte = clock::least(times, work) / (ROUNDS * code.len()) as f64;
        println!("code\t{kib} KiB\t{}\t{byte:.4}\t-\t-", code.len());
    }
}

/// A run at the largest fuel, of `rounds` rounds through 32 levels: its stack does not grow with either.
fn deep_run(rounds: u64) {
    let kernel = kernels::nested(rounds * 32, 32);
    let end = ends::proved(&kernel);
    assert_eq!(end.answer, Answer::Done);
    assert_eq!(end.state.regs[usize::from(encode::RCX)], 0);
    let fuel = kernel.setting.fuel;
    println!("{rounds} rounds through 32 levels at fuel {fuel}: done");
}

fn main() {
    let words: Vec<String> = std::env::args().skip(1).collect();
    let words: Vec<&str> = words.iter().map(String::as_str).collect();
    match words[..] {
        ["agree", ref paths @ ..] => paths.iter().for_each(|path| jobs::agree(path)),
        ["write", folder] => write(folder, 4_000_000),
        ["stack", rounds] => deep_run(rounds.parse().expect("a number of rounds")),
        ["quick"] => {
            kernels(2_400_000, 5);
            searches(2_400_000, 5);
            growth(1_000_000, 5);
            checking(5);
            stack::lines();
        }
        [] => {
            kernels(24_000_000, 7);
            searches(24_000_000, 7);
            growth(100_000_000, 20);
            checking(20);
            stack::lines();
        }
        _ => panic!("bench, bench quick, bench agree FILE... or bench stack N"),
    }
}
