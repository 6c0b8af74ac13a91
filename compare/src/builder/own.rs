//! This side of a comparison: a build and a buffer, followed by the tree as
//! long as only calls change them, and after damage by the rule over the
//! fields.

use super::forged::{self, Build};
use super::model::Model;
use super::record::RawCall;

pub struct Own {
    pub build: Build,
    pub buffer: Vec<u8>,
    /// None while the build is one that no call left.
    pub model: Option<Model>,
}

impl Own {
    pub fn new(build: Build, buffer: Vec<u8>) -> Own {
        Own {
            build,
            buffer,
            model: None,
        }
    }

    pub fn begin(&mut self) {
        self.model = Some(Model::default());
        self.build = Build::default();
    }

    pub fn damage(&mut self, change: impl FnOnce(&mut Build, &mut [u8])) {
        self.model = None;
        change(&mut self.build, &mut self.buffer);
    }

    pub fn call(&mut self, raw: &RawCall, lent: usize) -> u8 {
        let Some(call) = raw.value() else {
            return 2;
        };
        let Some(model) = &mut self.model else {
            return forged::call(&mut self.build, &mut self.buffer[..lent], &call);
        };
        let answer = model.answer(&call, lent);
        if answer == 0 {
            model.take(call);
            let front = model.front();
            self.buffer[..front.len()].copy_from_slice(&front);
            model.describe(&mut self.build);
        }
        answer
    }
}
