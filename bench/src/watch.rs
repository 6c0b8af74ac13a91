//! The watch of both interpreters: which of carry and overflow the fill word has set, and where such a one was read first.

use pokchrei::{Evaluation, Watch};

/// Where a run begins.
pub const NOTHING_OPEN: Watch = Watch {
    mark: None,
    carry_open: false,
    overflow_open: false,
};

pub fn open_both(watch: &mut Watch) {
    watch.carry_open = true;
    watch.overflow_open = true;
}

/// An instruction of this kind has completed at this place.
#[inline(always)]
pub fn see(watch: &mut Watch, kind: u8, evaluation: Evaluation, at: usize) {
    let reads = match kind {
        0x04 | 0x05 => watch.carry_open,
        0x06 => watch.overflow_open,
        _ => false,
    };
    if reads && watch.mark.is_none() {
        watch.mark = Some(at);
    }
    match kind {
        0x02 | 0x04 => {
            watch.carry_open = false;
            watch.overflow_open &= evaluation == Evaluation::Base;
        }
        0x05 => watch.carry_open = false,
        0x06 => watch.overflow_open = false,
        0x07 | 0x08 | 0x0a | 0x0c..=0x0f => open_both(watch),
        0x0b | 0x19 => {
            watch.carry_open = false;
            watch.overflow_open = false;
        }
        0x1a | 0x1b => {
            watch.carry_open = false;
            watch.overflow_open = true;
        }
        _ => {}
    }
}
