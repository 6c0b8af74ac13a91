//! The end of a kernel's run, by each of the three evaluators.

use crate::decoded::Program;
use crate::kernels::Kernel;
use crate::machine::Machine;
use crate::plain::{self, Stop};
use crate::watch::NOTHING_OPEN;
use pokchrei::{Answer, Cells, Least, Setting, State, Watch};

/// What the evaluators are held to.
#[derive(Clone, Debug, PartialEq, Eq)]
pub struct End {
    pub answer: Answer,
    pub steps: u64,
    pub watch: Watch,
    pub state: State,
    pub values: Vec<u64>,
}

/// Lends a kernel's start and cells to a call, and hands back what it answers and leaves.
fn lent<T>(
    kernel: &Kernel,
    call: fn(&[u8], Cells<'_>, &mut State, Setting) -> T,
) -> (T, State, Vec<u64>) {
    let mut state = kernel.state.clone();
    let mut values = kernel.values.clone();
    let cells = Cells {
        addresses: &kernel.addresses,
        tags: &kernel.tags,
        values: &mut values,
    };
    let end = call(&kernel.code, cells, &mut state, kernel.setting);
    (end, state, values)
}

/// The proved evaluator, through its static library.
pub fn proved(kernel: &Kernel) -> End {
    let (end, state, values) = lent(kernel, pokchrei::run);
    End {
        answer: end.answer,
        steps: end.steps,
        watch: end.watch,
        state,
        values,
    }
}

/// The least fuel with which a kernel comes to an end, up to its own fuel, and that end, by the proved evaluator.
pub fn searched(kernel: &Kernel) -> (u32, End) {
    let (end, state, values) = lent(kernel, pokchrei::least_fuel);
    let Least::Fuel { fuel, answer } = end.least else {
        panic!("{}: {:?}", kernel.name, end.least);
    };
    let end = End {
        answer,
        steps: end.steps,
        watch: end.watch,
        state,
        values,
    };
    (fuel, end)
}

pub fn plain(kernel: &Kernel) -> End {
    let mut values = kernel.values.clone();
    let mut machine = plain::Machine {
        code: &kernel.code,
        addresses: &kernel.addresses,
        tags: &kernel.tags,
        values: &mut values,
        regs: kernel.state.regs,
        xmms: quads(&kernel.state),
        flags: kernel.state.flags,
        fill: kernel.setting.fill,
        limit: kernel.setting.limit,
        evaluation: kernel.setting.evaluation,
        steps: 0,
        watch: NOTHING_OPEN,
    };
    let stop = machine.eval(0, kernel.setting.fuel).err();
    let counted = (machine.steps, machine.watch);
    let state = state(machine.regs, machine.xmms, machine.flags);
    end(stop, counted, state, values)
}

/// Decoding is a part of this run, as checking is of the proved one.
pub fn decoded(kernel: &Kernel) -> End {
    let mut values = kernel.values.clone();
    let mut machine = Machine {
        addresses: &kernel.addresses,
        tags: &kernel.tags,
        values: &mut values,
        regs: kernel.state.regs,
        xmms: quads(&kernel.state),
        flags: kernel.state.flags,
        fill: kernel.setting.fill,
        limit: kernel.setting.limit,
        evaluation: kernel.setting.evaluation,
        steps: 0,
        watch: NOTHING_OPEN,
    };
    let program = Program::decode(&kernel.code);
    let stop = program.run(&mut machine, kernel.setting.fuel).err();
    let watch = program.placed(machine.watch);
    let counted = (machine.steps, watch);
    let state = state(machine.regs, machine.xmms, machine.flags);
    end(stop, counted, state, values)
}

/// Holds both interpreters to an end of the proved evaluator.
pub fn hold(kernel: &Kernel, end: &End) {
    let name = &kernel.name;
    assert_eq!(*end, plain(kernel), "{name}: plain ends otherwise");
    assert_eq!(*end, decoded(kernel), "{name}: decoded ends otherwise");
}

fn quads(state: &State) -> [[u32; 4]; 16] {
    let mut quads = [[0; 4]; 16];
    quads.as_flattened_mut().copy_from_slice(&state.xmms);
    quads
}

fn state(regs: [u64; 16], quads: [[u32; 4]; 16], flags: u64) -> State {
    let mut xmms = [0; 64];
    xmms.copy_from_slice(quads.as_flattened());
    State { regs, xmms, flags }
}

fn end(stop: Option<Stop>, counted: (u64, Watch), state: State, values: Vec<u64>) -> End {
    let answer = match stop {
        None => Answer::Done,
        Some(Stop::Fault(number, place)) => Answer::Fault { number, place },
        Some(Stop::Limit(place)) => Answer::Stopped { number: 37, place },
        Some(Stop::Spent(place)) => Answer::Spent { place },
    };
    let (steps, watch) = counted;
    End {
        answer,
        steps,
        watch,
        state,
        values,
    }
}
