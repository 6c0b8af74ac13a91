//! The answer to a job, and the text that tells it.

use crate::cells::Cell;
use crate::reader::Trouble;
use crate::state::Start;
use crate::tree::REG_NAMES;
use crate::watch::Watch;
use std::fmt::Write;

#[derive(Clone, Copy, Debug, PartialEq, Eq)]
pub enum Answer {
    Done,
    Fault(u8, usize),
    /// The step limit was used up; the number is `STOPPED`.
    Stopped(u8, usize),
    Spent(usize),
    Refused(u8, usize),
}

/// The number of every Stopped.
pub const STOPPED: u8 = 37;

/// The answer with the steps made and the watch, and state and cells unless it is a refusal.
#[derive(Clone, Debug, PartialEq, Eq)]
pub struct Outcome {
    pub answer: Answer,
    /// Completed instructions and comparisons that passed their check.
    pub steps: u64,
    /// Of a refusal, too, which is unmarked with nothing open.
    pub watch: Watch,
    pub end: Option<(Start, Vec<Cell>)>,
}

impl Outcome {
    pub fn refused(trouble: Trouble) -> Outcome {
        Outcome {
            answer: Answer::Refused(trouble.number, trouble.place),
            steps: 0,
            watch: Watch::default(),
            end: None,
        }
    }

    pub fn is_spent(&self) -> bool {
        matches!(self.answer, Answer::Spent(_))
    }
}

pub fn first_line(answer: &Answer) -> String {
    match answer {
        Answer::Done => "done".to_string(),
        Answer::Fault(number, place) => format!("fault {number} at {place}"),
        Answer::Stopped(number, place) => format!("stopped {number} at {place}"),
        Answer::Spent(place) => format!("spent at {place}"),
        Answer::Refused(number, place) => format!("refused {number} at {place}"),
    }
}

/// The whole text; every line ends with a line feed. It does not tell the watch.
pub fn render(outcome: &Outcome) -> String {
    let mut text = first_line(&outcome.answer);
    text.push('\n');
    let Some((end, cells)) = &outcome.end else {
        return text;
    };
    let mut line = |words: std::fmt::Arguments| writeln!(text, "{words}").expect("a string grows");
    line(format_args!("steps {}", outcome.steps));
    line(format_args!("flags {}", end.flags));
    for (name, value) in REG_NAMES.iter().zip(end.regs) {
        if value != 0 {
            line(format_args!("{name} {value}"));
        }
    }
    for (number, [a, b, c, d]) in end.xmms.iter().enumerate() {
        if [a, b, c, d] != [&0; 4] {
            line(format_args!("xmm {number} {a} {b} {c} {d}"));
        }
    }
    for cell in cells {
        line(format_args!(
            "cell {} {} {}",
            cell.address, cell.tag, cell.value
        ));
    }
    text
}
