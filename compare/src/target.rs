//! The program under test: something that answers a job's bytes with text, and
//! maybe a job on terms of the caller's, by a run or with its least fuel.

use crate::answer::{render, Outcome};
use crate::follow::{Mode, Settings};
use crate::hunt::hunt;
use crate::job::Job;
use crate::least::Least;
use crate::reader::Rule;
use crate::run::{accept, answer_bytes, answer_bytes_by, outcome, outcome_with};
use crate::terms::Terms;
use std::io::{Read, Write};
use std::process::{Child, Command, Stdio};
use std::sync::mpsc;
use std::time::Duration;

pub trait Target {
    /// The text for one job, or why there is none.
    fn answer(&mut self, job: &[u8]) -> Result<Vec<u8>, String>;

    /// The outcome of a job on terms of the caller's, or why there is none.
    /// None where the program under test takes no terms: the job program has
    /// the base evaluation and the largest limit.
    fn run(&mut self, _job: &Job, _terms: Terms) -> Option<Result<Outcome, String>> {
        None
    }

    /// The least fuel up to a cap, which stands in the place of the job's fuel, or why
    /// there is none. None where the program under test cannot be asked for it.
    fn least_fuel(
        &mut self,
        _job: &Job,
        _cap: u32,
        _terms: Terms,
    ) -> Option<Result<Least, String>> {
        None
    }
}

/// To pass over such a program would look like a comparison.
pub const NO_TERMS: &str = "the program under test takes neither step limit nor evaluation; \
    `self` does, and `c` if built with the feature c_target";

/// The same of the least fuel.
pub const NO_LEAST_FUEL: &str = "the program under test cannot be asked for the least fuel; \
    `self` can, and `c` if built with the feature c_target";

/// How long a process may take for one job.
const PATIENCE: Duration = Duration::from_secs(60);

/// A process for each job, fed on standard input.
pub struct Process {
    pub program: String,
    pub arguments: Vec<String>,
}

/// This evaluator itself, to see what a seed brings.
pub struct Own;

/// This evaluator by last year's rule, for what was printed by it.
pub struct LastYear;

impl Target for Own {
    fn answer(&mut self, job: &[u8]) -> Result<Vec<u8>, String> {
        Ok(render(&answer_bytes(job)).into_bytes())
    }

    fn run(&mut self, job: &Job, terms: Terms) -> Option<Result<Outcome, String>> {
        Some(Ok(match accept(job) {
            Ok(code) => outcome(job, &code, up_to_the_first(job, terms)),
            Err(trouble) => Outcome::refused(trouble),
        }))
    }

    /// The search that this is compared with tries every fuel.
    fn least_fuel(&mut self, job: &Job, cap: u32, terms: Terms) -> Option<Result<Least, String>> {
        let settings = up_to_the_first(job, terms);
        Some(Ok(match accept(job) {
            Ok(code) => hunt(cap, |fuel| outcome_with(job, &code, fuel, settings)),
            Err(trouble) => Least::refused(trouble),
        }))
    }
}

/// Nothing is followed past the limit, or past another bad event; the runs that
/// these are compared with go on.
fn up_to_the_first(job: &Job, terms: Terms) -> Settings {
    Settings {
        mode: Mode::StopsAtFirst,
        ..Settings::new(job.fill, terms)
    }
}

impl Target for LastYear {
    fn answer(&mut self, job: &[u8]) -> Result<Vec<u8>, String> {
        Ok(render(&answer_bytes_by(Rule::LastYear, job)).into_bytes())
    }
}

impl Target for Process {
    fn answer(&mut self, job: &[u8]) -> Result<Vec<u8>, String> {
        let mut child = Command::new(&self.program)
            .args(&self.arguments)
            .stdin(Stdio::piped())
            .stdout(Stdio::piped())
            .stderr(Stdio::null())
            .spawn()
            .map_err(|e| format!("{} does not start: {e}", self.program))?;
        feed(&mut child, job)?;
        let text = collect(&mut child);
        if text.is_err() {
            // It may have ended by itself in the meantime.
            let _ = child.kill();
        }
        let status = child.wait().map_err(|e| format!("lost: {e}"))?;
        if text.is_ok() && status.code().is_none() {
            return Err(format!("ended by a signal: {status}"));
        }
        text
    }
}

/// A program may stop reading once the input is too long for it.
fn feed(child: &mut Child, job: &[u8]) -> Result<(), String> {
    let mut input = child.stdin.take().ok_or("no standard input")?;
    match input.write_all(job) {
        Err(e) if e.kind() != std::io::ErrorKind::BrokenPipe => Err(format!("not fed: {e}")),
        _ => Ok(()),
    }
}

fn collect(child: &mut Child) -> Result<Vec<u8>, String> {
    let mut output = child.stdout.take().ok_or("no standard output")?;
    let (sender, receiver) = mpsc::channel();
    std::thread::spawn(move || {
        let mut text = Vec::new();
        let result = output.read_to_end(&mut text).map(|_| text);
        // Nobody waits any longer after a timeout.
        let _ = sender.send(result);
    });
    match receiver.recv_timeout(PATIENCE) {
        Ok(result) => result.map_err(|e| format!("not read: {e}")),
        Err(_) => Err(format!("no answer within {} s", PATIENCE.as_secs())),
    }
}
