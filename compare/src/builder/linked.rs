//! The library's builder, through its C interface. This is the one file with
//! calls that Rust cannot check: every pointer is to the whole array or value
//! that the interface names, and outlives the call.

use super::drive::Builder;
use super::forged::Build;
use super::record::{Entry, RawCall, Record};
// The wrapper's crate brings the static library along.
use pokchrei as _;

/// Functions with a build and a buffer, and those with a record besides.
macro_rules! interface {
    ($($plain:ident)*; $($recorded:ident)*) => {
        extern "C" {
            $(fn $plain(
                length: *mut u16, depth: *mut u16,
                parts: *mut u8, fields: *mut u16, starts: *mut u16,
                buffer: *mut u8, buffer_length: usize,
            ) -> u8;)*

            $(fn $recorded(
                length: *mut u16, depth: *mut u16,
                parts: *mut u8, fields: *mut u16, starts: *mut u16,
                buffer: *mut u8, buffer_length: usize,
                kind: u8, body: *const u8, operands: *const u8,
                bases: *const u8, indexes: *const u8, scales: *const i16,
                numbers: *const u64, offsets: *const i64,
            ) -> u8;)*
        }
    };
}

interface! {
    pokchrei_open_block pokchrei_close;
    pokchrei_open_if_else pokchrei_open_while pokchrei_add
}

extern "C" {
    fn pokchrei_begin(
        length: *mut u16,
        depth: *mut u16,
        parts: *mut u8,
        fields: *mut u16,
        starts: *mut u16,
    );
    fn pokchrei_check_code(code: *const u8, code_length: usize, place: *mut usize) -> u8;
}

pub struct Linked;

impl Builder for Linked {
    fn begin(&mut self, build: &mut Build) {
        unsafe {
            pokchrei_begin(
                &mut build.length,
                &mut build.depth,
                build.parts.as_mut_ptr(),
                build.fields.as_mut_ptr(),
                build.starts.as_mut_ptr(),
            )
        }
    }

    fn call(&mut self, build: &mut Build, buffer: &mut [u8], call: &RawCall) -> u8 {
        if call.entry.takes_a_record() {
            recorded(build, buffer, call.entry, &call.record)
        } else {
            plain(build, buffer, call.entry)
        }
    }

    fn accepts(&mut self, code: &[u8]) -> bool {
        let mut place = usize::MAX;
        let answer = unsafe { pokchrei_check_code(code.as_ptr(), code.len(), &mut place) };
        (answer, place) == (0, 0)
    }
}

fn plain(build: &mut Build, buffer: &mut [u8], entry: Entry) -> u8 {
    let function = match entry {
        Entry::OpenBlock => pokchrei_open_block,
        _ => pokchrei_close,
    };
    unsafe {
        function(
            &mut build.length,
            &mut build.depth,
            build.parts.as_mut_ptr(),
            build.fields.as_mut_ptr(),
            build.starts.as_mut_ptr(),
            buffer.as_mut_ptr(),
            buffer.len(),
        )
    }
}

fn recorded(build: &mut Build, buffer: &mut [u8], entry: Entry, record: &Record) -> u8 {
    let function = match entry {
        Entry::OpenIfElse => pokchrei_open_if_else,
        Entry::OpenWhile => pokchrei_open_while,
        _ => pokchrei_add,
    };
    unsafe {
        function(
            &mut build.length,
            &mut build.depth,
            build.parts.as_mut_ptr(),
            build.fields.as_mut_ptr(),
            build.starts.as_mut_ptr(),
            buffer.as_mut_ptr(),
            buffer.len(),
            record.kind,
            record.body.as_ptr(),
            record.operands.as_ptr(),
            record.bases.as_ptr(),
            record.indexes.as_ptr(),
            record.scales.as_ptr(),
            record.numbers.as_ptr(),
            record.offsets.as_ptr(),
        )
    }
}
