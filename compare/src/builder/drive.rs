//! A list of calls through both builders. After every step the answers, the
//! builds and the whole buffers have to be the same.

use super::calls::of_tree;
use super::damage::damage;
use super::forged::{self, Build};
use super::lists::list;
use super::maker::{List, Step};
use super::model::{Model, Stand};
use super::own::Own;
use super::record::RawCall;
use super::tally::{Met, Tally};
use crate::reader::read;
use crate::rng::Rng;
use crate::writer::write;

/// The builder under test.
pub trait Builder {
    fn begin(&mut self, build: &mut Build);
    fn call(&mut self, build: &mut Build, buffer: &mut [u8], call: &RawCall) -> u8;
    /// Whether checking code accepts these bytes.
    fn accepts(&mut self, code: &[u8]) -> bool;
}

/// The rule for damaged builds, standing in for the library: on sound builds
/// it has to agree with the tree.
pub struct Rule;

impl Builder for Rule {
    fn begin(&mut self, build: &mut Build) {
        *build = Build::default();
    }

    fn call(&mut self, build: &mut Build, buffer: &mut [u8], call: &RawCall) -> u8 {
        let value = call.value();
        value.map_or(2, |call| forged::call(build, buffer, &call))
    }

    fn accepts(&mut self, code: &[u8]) -> bool {
        read(code).is_ok()
    }
}

/// Drives so many lists; a list is left at its first difference.
pub fn compare(lists: u64, seed: u64, builder: &mut dyn Builder) -> Tally {
    let mut tally = Tally::default();
    for index in 0..lists {
        if let Err(what) = drive(&list(seed, index), builder, &mut tally) {
            tally.differ(format!("seed {seed}, list {index}, {what}"));
        }
        tally.lists += 1;
    }
    tally
}

pub fn drive(list: &List, builder: &mut dyn Builder, tally: &mut Tally) -> Result<(), String> {
    let mut drive = Drive {
        own: Own::new(list.build.clone(), list.buffer.clone()),
        theirs: Side {
            build: list.build.clone(),
            buffer: list.buffer.clone(),
        },
        builder,
        tally,
    };
    for (number, step) in list.steps.iter().enumerate() {
        let done = drive.step(step);
        done.map_err(|what| format!("step {number}: {what}"))?;
    }
    Ok(())
}

struct Side {
    build: Build,
    buffer: Vec<u8>,
}

struct Drive<'a> {
    own: Own,
    theirs: Side,
    builder: &'a mut dyn Builder,
    tally: &'a mut Tally,
}

impl Drive<'_> {
    fn step(&mut self, step: &Step) -> Result<(), String> {
        match step {
            Step::Begin => {
                self.own.begin();
                self.builder.begin(&mut self.theirs.build);
            }
            Step::Damage(seed) => {
                let mut rng = Rng::new(*seed);
                self.own
                    .damage(|build, buffer| damage(build, buffer, &mut rng));
                self.theirs = Side {
                    build: self.own.build.clone(),
                    buffer: self.own.buffer.clone(),
                };
            }
            Step::Call(call, lent) => self.call(call, *lent)?,
        }
        self.same()
    }

    fn call(&mut self, call: &RawCall, lent: usize) -> Result<(), String> {
        let stand = self.own.model.as_ref().map(Model::stand);
        let own = self.own.call(call, lent);
        let Side { build, buffer } = &mut self.theirs;
        let theirs = self.builder.call(build, &mut buffer[..lent], call);
        if own != theirs {
            return Err(format!(
                "{call:?} with {lent} bytes lent, at {stand:?}: answer {theirs}, not {own}"
            ));
        }
        self.tally.add(Met { stand, answer: own }, call);
        let Some(model) = &self.own.model else {
            return Ok(());
        };
        self.tally.deepest = self.tally.deepest.max(model.depth());
        match (own, model.stand()) {
            (0, Stand::Finished) => self.finished(),
            _ => Ok(()),
        }
    }

    fn same(&self) -> Result<(), String> {
        let (own, theirs) = (&self.own, &self.theirs);
        if own.build != theirs.build {
            return Err(format!("build {:?}, not {:?}", theirs.build, own.build));
        }
        if own.buffer == theirs.buffer {
            return Ok(());
        }
        let mut pairs = own.buffer.iter().zip(&theirs.buffer);
        let at = pairs.position(|(a, b)| a != b).unwrap_or(0);
        Err(format!(
            "the buffer's byte {at} is {}, not {}, with {} bytes built",
            theirs.buffer[at], own.buffer[at], own.build.length
        ))
    }

    /// What has to hold of a finished build beyond its bytes.
    fn finished(&mut self) -> Result<(), String> {
        let Some(model) = &self.own.model else {
            return Ok(());
        };
        let front = model.front();
        let code = read(&front).map_err(|trouble| format!("finished, read as {trouble:?}"))?;
        if of_tree(&code) != model.taken() || write(&code) != front {
            return Err(format!("finished, read back as {code:?}"));
        }
        if !self.builder.accepts(&self.theirs.buffer[..front.len()]) {
            return Err("finished, not accepted".to_string());
        }
        self.tally.finish(front.len());
        Ok(())
    }
}

#[cfg(test)]
#[path = "drive_tests.rs"]
mod tests;
