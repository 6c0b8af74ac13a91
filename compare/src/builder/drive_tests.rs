//! The comparison itself: the rule over a build's fields agrees with the
//! tree, and a builder with a slip in it does not.

use super::super::calls::Call;
use super::*;

const SEED: u64 = 2026;

fn report(lists: u64, builder: &mut dyn Builder) -> Result<(), String> {
    compare(lists, SEED, builder).verdict()
}

#[test]
fn the_rule_agrees_with_the_tree() {
    assert_eq!(report(200, &mut Rule), Ok(()));
}

/// The rule with one thing done otherwise.
struct Slip(fn(&mut Build, &mut [u8], &Call) -> u8);

impl Builder for Slip {
    fn begin(&mut self, build: &mut Build) {
        *build = Build::default();
    }

    fn call(&mut self, build: &mut Build, buffer: &mut [u8], call: &RawCall) -> u8 {
        let value = call.value();
        value.map_or(2, |call| (self.0)(build, buffer, &call))
    }

    fn accepts(&mut self, _: &[u8]) -> bool {
        true
    }
}

fn is_found(slip: fn(&mut Build, &mut [u8], &Call) -> u8) {
    is_found_in(100, slip);
}

fn is_found_in(lists: u64, slip: fn(&mut Build, &mut [u8], &Call) -> u8) {
    assert!(report(lists, &mut Slip(slip)).is_err());
}

#[test]
fn slips_in_the_buffer_are_found() {
    is_found(|build, buffer, call| {
        let before = buffer.to_vec();
        let answer = forged::call(build, buffer, call);
        if *call == Call::Close {
            buffer.copy_from_slice(&before);
        }
        answer
    });
    is_found(|build, buffer, call| {
        let answer = forged::call(build, buffer, call);
        let behind = usize::from(build.length);
        if answer == 0 && behind < buffer.len() {
            buffer[behind] = 0;
        }
        answer
    });
    is_found(|build, buffer, call| {
        let answer = forged::call(build, buffer, call);
        if answer == 52 && !buffer.is_empty() {
            buffer[0] ^= 1;
        }
        answer
    });
}

#[test]
fn slips_in_the_build_are_found() {
    is_found(|build, buffer, call| {
        let answer = forged::call(build, buffer, call);
        if (answer, call) == (0, &Call::Close) {
            build.fields[usize::from(build.depth).min(31)] = 0;
        }
        answer
    });
    is_found(|build, buffer, call| {
        let answer = forged::call(build, buffer, call);
        if answer == 53 {
            build.length += 1;
        }
        answer
    });
}

#[test]
fn slips_in_the_answers_are_found() {
    is_found(|build, buffer, call| match call.bad_field() {
        Some(trouble) => trouble.number,
        None => forged::call(build, buffer, call),
    });
    is_found(|build, buffer, call| {
        let lent = buffer.len().saturating_sub(1);
        forged::call(build, &mut buffer[..lent], call)
    });
    is_found(|build, buffer, call| {
        let lent = buffer.len() % 65_536;
        forged::call(build, &mut buffer[..lent], call)
    });
    is_found(|build, buffer, call| match build.depth {
        33.. => 53,
        _ => forged::call(build, buffer, call),
    });
}

/// What is wrong with a record once the scale that it is refused for is put right.
fn behind_the_scale(call: &Call) -> Option<u8> {
    let (mut alone, at) = (call.alone()?, call.bad_field()?.place);
    alone[at..at + 2].copy_from_slice(&1i16.to_le_bytes());
    read(&alone).err().map(|trouble| trouble.number)
}

#[test]
fn slips_about_scales_are_found() {
    is_found(|build, buffer, call| {
        let answer = forged::call(build, buffer, call);
        match answer {
            7 => 4,
            _ => answer,
        }
    });
    // A bad register comes first wherever it stands.
    is_found_in(300, |build, buffer, call| {
        let answer = forged::call(build, buffer, call);
        match answer {
            7 if behind_the_scale(call) == Some(4) => 4,
            _ => answer,
        }
    });
    // Depth and room come first.
    is_found_in(300, |build, buffer, call| {
        let (deep, answer) = (build.depth == 32, forged::call(build, buffer, call));
        match answer {
            7 if deep => 53,
            _ => answer,
        }
    });
    is_found_in(300, |build, buffer, call| {
        let short = usize::from(build.length) > buffer.len();
        let answer = forged::call(build, buffer, call);
        match answer {
            7 if short => 52,
            _ => answer,
        }
    });
}
