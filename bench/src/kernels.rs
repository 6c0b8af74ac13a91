//! The kernels that are timed.

use crate::encode::*;
use pokchrei::{Evaluation, Setting, State};

/// Code with its start, its cells, and fill word, fuel, limit and evaluation.
#[derive(Clone)]
pub struct Kernel {
    pub name: String,
    pub code: Code,
    pub state: State,
    pub setting: Setting,
    pub addresses: Vec<u64>,
    pub tags: Vec<u8>,
    pub values: Vec<u64>,
}

pub const FIRST_CELL: u64 = 4096;

/// Registers and flags of 0, no cells, the largest fuel and limit, and the base's evaluation.
pub fn kernel(name: &str, code: Code) -> Kernel {
    Kernel {
        name: name.to_string(),
        code,
        state: State::default(),
        setting: Setting {
            fill: 0,
            fuel: u32::MAX,
            limit: u64::MAX,
            evaluation: Evaluation::Base,
        },
        addresses: Vec::new(),
        tags: Vec::new(),
        values: Vec::new(),
    }
}

/// A loop, counted down in Rcx, over codes that take `inner` steps: as many rounds as `steps` have room for. The
/// comparison that ends it is one step more.
fn looped(name: &str, steps: u64, inner: u64, body: Vec<Code>) -> Kernel {
    let rounds = steps / (inner + 2);
    let mut codes = body;
    codes.push(two(0x07, reg(RCX), constant(1)));
    let code = while_holds(two(0x31, reg(RCX), constant(0)), block(&codes));
    let mut kernel = kernel(name, code);
    set_regs(&mut kernel, &[(RCX, rounds)]);
    kernel
}

pub fn set_regs(kernel: &mut Kernel, words: &[(u8, u64)]) {
    for &(r, word) in words {
        kernel.state.regs[usize::from(r)] = word;
    }
}

/// Lends 64-bit cells in a row; cell i holds i * i.
pub fn set_cells(kernel: &mut Kernel, count: u64) {
    kernel.addresses = (0..count).map(|i| FIRST_CELL + 8 * i).collect();
    kernel.tags = vec![64; kernel.addresses.len()];
    kernel.values = (0..count).map(|i| i * i).collect();
}

/// Registers alone.
pub fn straight(steps: u64) -> Kernel {
    let body = vec![
        two(ADD64, reg(RAX), reg(RBX)),
        two(0x0b, reg(RBX), reg(RSI)),
        record(0x03, &[], &[reg(RSI), reg(RAX), constant(77)]),
        two(0x04, reg(RDI), reg(RSI)),
        two(0x01, reg(8), reg(RDI)),
        two(0x05, reg(9), reg(8)),
        two(0x0c, reg(10), reg(9)),
        two(0x0a, reg(11), reg(8)),
        two(0x0d, reg(8), constant(3)),
        two(0x07, reg(12), reg(11)),
    ];
    let mut kernel = looped("straight", steps, 10, body);
    let words = [(RAX, 1), (RBX, 2), (RSI, 3), (10, u64::MAX), (11, 5)];
    set_regs(&mut kernel, &words);
    kernel
}

/// Counts of a register's bits, and what changes it.
pub fn counts(steps: u64) -> Kernel {
    let body = vec![
        two(ADD64, reg(RAX), reg(RBX)),
        two(0x19, reg(8), reg(RAX)),
        two(0x1a, reg(9), reg(RAX)),
        two(0x0d, reg(RAX), reg(9)),
        two(0x1b, reg(10), reg(RAX)),
        two(ADD64, reg(RBX), reg(8)),
    ];
    let mut kernel = looped("counts", steps, 6, body);
    set_regs(&mut kernel, &[(RBX, 0x0123_4567_89ab_cdef)]);
    kernel
}

/// Additions, whose flags the evaluation decides, and an Adox64 that reads the overflow.
pub fn sums(steps: u64) -> Kernel {
    let body = vec![
        two(ADD64, reg(RAX), reg(RBX)),
        two(0x04, reg(RSI), reg(RAX)),
        two(0x06, reg(RDI), reg(RSI)),
        two(0x04, reg(RBX), reg(RDI)),
    ];
    let mut kernel = looped("sums", steps, 4, body);
    set_regs(&mut kernel, &[(RAX, 1 << 62), (RBX, 0x6123_4567_89ab_cdef)]);
    kernel
}

/// A kernel on the board.
pub fn on_board(kernel: Kernel) -> Kernel {
    Kernel {
        name: format!("{}, board", kernel.name),
        setting: Setting {
            evaluation: Evaluation::Board,
            ..kernel.setting
        },
        ..kernel
    }
}

/// IfElse, memory, lanes and products.
pub fn mixed(steps: u64) -> Kernel {
    let small = block(&[
        two(ADD64, reg(RAX), at_reg(RSI, 8)),
        two(0x01, at_reg(RSI, 16), reg(RAX)),
    ]);
    let large = block(&[
        two(0x0b, reg(RAX), constant(0x5555_5555_5555_5555)),
        two(0x0d, reg(RAX), constant(1)),
    ]);
    let below = two(0x34, reg(RAX), constant(1 << 63));
    let same = two(0x30, reg(9), reg(10));
    let body = vec![
        if_else(below, small, large),
        record(0x09, &[], &[reg(8), reg(9), reg(RAX)]),
        two(ADD64, reg(RAX), reg(8)),
        record(0x17, &[1, 0], &[reg(RAX)]),
        record(0x0f, &[2, 1], &[]),
        record(0x15, &[2, 1], &[reg(10)]),
        if_else(
            same,
            two(0x01, reg(11), constant(1)),
            two(ADD64, at(FIRST_CELL), constant(3)),
        ),
        two(ADD64, reg(RDI), at_reg(RSI, 0)),
    ];
    let mut kernel = looped("mixed", steps, 11, body);
    let words = [(RSI, FIRST_CELL), (RDX, 0x1234_5678_9abc_def1), (RAX, 99)];
    set_regs(&mut kernel, &words);
    set_cells(&mut kernel, 8);
    kernel
}

/// Thirteen IfElse and as many Blocks, one inside the other.
pub fn deep(steps: u64) -> Kernel {
    let mut inner = block(&[
        two(ADD64, reg(RAX), reg(RBX)),
        two(ADD64, reg(RBX), constant(1)),
    ]);
    for _ in 0..13 {
        let always = two(0x33, reg(RBX), constant(0));
        let yes = block(&[inner, two(ADD64, reg(RAX), constant(1))]);
        inner = if_else(always, yes, block(&[]));
    }
    looped("deep", steps, 28, vec![inner])
}

/// 64-bit cells at equal distances: `count` of them (a power of two), the first at `first` and each `stride` bytes above
/// the one before. `indexed` is the cell of number k where Rdi is `unit` (a power of two) times k.
struct Spaced {
    first: u64,
    stride: u64,
    count: u64,
    indexed: Code,
    unit: u64,
}

/// Reads and stores by every memory operand.
fn over_cells(name: &str, steps: u64, cells: Spaced) -> Kernel {
    let last = cells.first + cells.stride * (cells.count - 1);
    let middle = (cells.stride * (cells.count / 2)) as i64;
    let body = vec![
        two(ADD64, reg(RDI), constant(7 * cells.unit)),
        two(0x0c, reg(RDI), constant((cells.count - 1) * cells.unit)),
        two(ADD64, cells.indexed.clone(), reg(RCX)),
        two(0x01, reg(RAX), cells.indexed),
        two(0x0b, reg(8), at_reg(RBX, middle)),
        two(ADD64, reg(9), at(last)),
        two(0x01, at_reg(RBX, middle), reg(9)),
    ];
    let mut kernel = looped(name, steps, 7, body);
    set_regs(&mut kernel, &[(RBX, cells.first)]);
    kernel
}

/// Cells that are 64-bit words in a row.
pub fn memory(steps: u64, count: u64) -> Kernel {
    let name = format!("memory, {count} cells");
    let cells = Spaced {
        first: FIRST_CELL,
        stride: 8,
        count,
        indexed: at_index(RBX, 8, RDI, 0),
        unit: 1,
    };
    let mut kernel = over_cells(&name, steps, cells);
    set_cells(&mut kernel, count);
    kernel
}

/// `count` cells (a power of two from 4 on) of every tag, with gaps. No 64-bit cell is where it would be if all cells
/// were words in a row: that of group k has index 4k + 3 and lies 6k + 4 words above the first cell, and these two never
/// meet. A group takes 48 bytes, which is no scale: Rdi is 16k, and the operand adds it to twice itself.
pub fn scattered(steps: u64, count: u64) -> Kernel {
    const GROUP: [(u64, u8); 4] = [(0, 8), (3, 16), (9, 32), (32, 64)];
    const STRIDE: u64 = 48;
    let groups = count / 4;
    let (wide, _) = GROUP[3];
    let first = FIRST_CELL + wide;
    let name = format!("scattered, {count} cells");
    let cells = Spaced {
        first,
        stride: STRIDE,
        count: groups,
        indexed: at_index(RDI, 2, RDI, first as i64),
        unit: STRIDE / 3,
    };
    let mut kernel = over_cells(&name, steps, cells);
    for k in 0..groups {
        let group = FIRST_CELL + STRIDE * k;
        for (offset, tag) in GROUP {
            kernel.addresses.push(group + offset);
            kernel.tags.push(tag);
            kernel.values.push(k);
        }
    }
    kernel
}

/// A loop whose one instruction stands at `depth` (3 to 32), below IfElse inside IfElse.
pub fn nested(steps: u64, depth: u64) -> Kernel {
    let mut inner = two(ADD64, reg(RAX), reg(RBX));
    for _ in 3..depth {
        let always = two(0x33, reg(RBX), constant(0));
        inner = if_else(always, inner, block(&[]));
    }
    looped(&format!("depth {depth}"), steps, depth - 2, vec![inner])
}

/// Code of `bytes` bytes to check: a Block of additions, filled up with Pxor.
pub fn code_of(bytes: usize) -> Code {
    let add = two(ADD64, reg(RAX), constant(1));
    let mut codes = Vec::new();
    let mut left = bytes - 5;
    while left >= add.len() + 3 || left == add.len() {
        codes.push(add.clone());
        left -= add.len();
    }
    while left >= 3 {
        codes.push(record(0x10, &[1, 2], &[]));
        left -= 3;
    }
    block(&codes)
}
