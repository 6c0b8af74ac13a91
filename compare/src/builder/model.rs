//! The builder over a tree in the making. It keeps no offsets: the bytes, and
//! what a build says of its open parts, are worked out from the tree each time.

use super::calls::Call;
use super::forged::Build;
use crate::reader::{DEEPEST, LONGEST};
use crate::writer::{push_comparison, push_length, write_instruction};

#[derive(Clone, Copy, Debug, PartialEq, Eq, PartialOrd, Ord)]
pub enum PartKind {
    Block,
    True,
    False,
    While,
}

impl PartKind {
    fn takes_one_code(self) -> bool {
        self != PartKind::Block
    }

    /// The number of the kind in a build.
    fn number(self) -> u8 {
        match self {
            PartKind::Block => 0,
            PartKind::True => 1,
            PartKind::False | PartKind::While => 2,
        }
    }
}

/// A code with as much of its parts as was added so far. `begun` is the call
/// that added it, never a close.
struct Growing {
    begun: Call,
    parts: Vec<Part>,
}

#[derive(Default)]
struct Part {
    codes: Vec<Growing>,
    closed: bool,
}

impl Part {
    fn bytes(&self) -> Vec<u8> {
        bytes_of(&self.codes)
    }
}

fn bytes_of(codes: &[Growing]) -> Vec<u8> {
    let records: Vec<Vec<u8>> = codes.iter().map(Growing::bytes).collect();
    records.concat()
}

impl Growing {
    fn new(begun: Call) -> Growing {
        let count = match begun {
            Call::Add(_) | Call::Close => 0,
            Call::OpenBlock | Call::OpenWhile(_) => 1,
            Call::OpenIfElse(_) => 2,
        };
        let parts = (0..count).map(|_| Part::default()).collect();
        Growing { begun, parts }
    }

    /// The part that codes go to now: parts are closed in their order.
    fn open_part(&self) -> Option<(PartKind, usize)> {
        let at = self.parts.iter().position(|part| !part.closed)?;
        let kind = match (&self.begun, at) {
            (Call::OpenIfElse(_), 0) => PartKind::True,
            (Call::OpenIfElse(_), _) => PartKind::False,
            (Call::OpenWhile(_), _) => PartKind::While,
            _ => PartKind::Block,
        };
        Some((kind, at))
    }

    fn innermost(&mut self) -> Option<&mut Part> {
        let (_, at) = self.open_part()?;
        let part = &mut self.parts[at];
        match part.codes.last() {
            Some(last) if last.open_part().is_some() => part.codes.last_mut()?.innermost(),
            _ => Some(part),
        }
    }

    /// The record with all its parts; a part that is not closed has length 0.
    fn bytes(&self) -> Vec<u8> {
        let (mut out, comparison) = match &self.begun {
            Call::Add(instruction) => (write_instruction(instruction), None),
            Call::OpenIfElse(comparison) => (vec![0x21], Some(comparison)),
            Call::OpenWhile(comparison) => (vec![0x22], Some(comparison)),
            Call::OpenBlock | Call::Close => (vec![0x20], None),
        };
        let parts: Vec<Vec<u8>> = self.parts.iter().map(Part::bytes).collect();
        for (part, bytes) in self.parts.iter().zip(&parts) {
            push_length(&mut out, if part.closed { bytes.len() } else { 0 });
        }
        if let Some(comparison) = comparison {
            push_comparison(&mut out, comparison);
        }
        out.extend(parts.concat());
        out
    }
}

/// How many bytes a call adds.
pub fn added(call: &Call) -> usize {
    match call {
        Call::Close => 0,
        adding => Growing::new(adding.clone()).bytes().len(),
    }
}

/// Where the next call meets a build.
#[derive(Clone, Copy, Debug, PartialEq, Eq, PartialOrd, Ord)]
pub enum Stand {
    Begun,
    In(PartKind),
    Finished,
}

/// A build: the calls that were taken, as a list and as a tree.
#[derive(Default)]
pub struct Model {
    outermost: Option<Growing>,
    taken: Vec<Call>,
    length: usize,
}

// The answers.
impl Model {
    /// 0 where the call is taken, with so many bytes lent.
    pub fn answer(&self, call: &Call, lent: usize) -> u8 {
        let open = self.open_parts();
        if !self.fits(call, open.last()) {
            51
        } else if let Some(trouble) = call.bad_field() {
            trouble.number
        } else if call.adds() && open.len() + 1 > DEEPEST {
            53
        } else if self.length + added(call) > lent.min(LONGEST) {
            52
        } else {
            0
        }
    }

    fn fits(&self, call: &Call, innermost: Option<&(PartKind, &Part)>) -> bool {
        match innermost {
            None => call.adds() && self.outermost.is_none(),
            Some((kind, _)) if !kind.takes_one_code() => true,
            Some((_, part)) => part.codes.is_empty() == call.adds(),
        }
    }

    /// The open parts, outermost first.
    fn open_parts(&self) -> Vec<(PartKind, &Part)> {
        let mut open = Vec::new();
        let mut code = self.outermost.as_ref();
        while let Some(growing) = code {
            let Some((kind, at)) = growing.open_part() else {
                break;
            };
            open.push((kind, &growing.parts[at]));
            code = growing.parts[at].codes.last();
        }
        open
    }

    pub fn stand(&self) -> Stand {
        match (self.open_parts().last(), &self.outermost) {
            (Some((kind, _)), _) => Stand::In(*kind),
            (None, None) => Stand::Begun,
            (None, Some(_)) => Stand::Finished,
        }
    }

    pub fn depth(&self) -> usize {
        self.open_parts().len()
    }

    pub fn length(&self) -> usize {
        self.length
    }

    pub fn taken(&self) -> &[Call] {
        &self.taken
    }
}

// What a taken call leaves.
impl Model {
    /// Does a call that was answered 0.
    pub fn take(&mut self, call: Call) {
        self.length += added(&call);
        self.taken.push(call.clone());
        let innermost = self.outermost.as_mut().and_then(Growing::innermost);
        match (innermost, call) {
            (Some(part), Call::Close) => part.closed = true,
            (Some(part), adding) => part.codes.push(Growing::new(adding)),
            (None, adding) => self.outermost = Some(Growing::new(adding)),
        }
    }

    /// The build's bytes, as they stand at the front of the buffer.
    pub fn front(&self) -> Vec<u8> {
        self.outermost.as_ref().map_or(Vec::new(), Growing::bytes)
    }

    /// Sets a build's fields; entries above the depth are left alone.
    pub fn describe(&self, build: &mut Build) {
        let (mut depth, mut place) = (0, 0);
        let mut code = self.outermost.as_ref();
        while let Some(growing) = code {
            let Some((kind, at)) = growing.open_part() else {
                break;
            };
            let closed: usize = growing.parts[..at].iter().map(|p| p.bytes().len()).sum();
            let start = place + added(&growing.begun) + closed;
            build.parts[depth] = kind.number();
            build.fields[depth] = (place + 1 + 4 * at) as u16;
            build.starts[depth] = start as u16;
            depth += 1;
            code = growing.parts[at].codes.last();
            let count = growing.parts[at].codes.len();
            let earlier = &growing.parts[at].codes[..count.saturating_sub(1)];
            place = start + bytes_of(earlier).len();
        }
        build.length = self.front().len() as u16;
        build.depth = depth as u16;
    }
}

#[cfg(test)]
#[path = "model_tests.rs"]
mod tests;
