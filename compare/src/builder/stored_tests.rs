//! A stored file, read back and followed anew.

use super::*;

fn word(bytes: &[u8]) -> usize {
    let low_first = bytes.iter().rev();
    low_first.fold(0, |n, byte| n << 8 | usize::from(*byte))
}

/// Takes so many bytes off the front.
fn cut<'a>(rest: &mut &'a [u8], n: usize) -> &'a [u8] {
    let (front, behind) = rest.split_at(n);
    *rest = behind;
    front
}

fn record(bytes: &[u8]) -> Record {
    let three = |from: usize| std::array::from_fn(|i| bytes[from + i]);
    let wide = |from: usize, i: usize| word(&bytes[from + 8 * i..from + 8 * i + 8]) as u64;
    Record {
        kind: bytes[0],
        body: three(1),
        operands: three(4),
        bases: three(7),
        indexes: three(10),
        scales: std::array::from_fn(|i| word(&bytes[13 + 2 * i..15 + 2 * i]) as i16),
        numbers: std::array::from_fn(|i| wide(19, i)),
        offsets: std::array::from_fn(|i| wide(43, i) as i64),
    }
}

struct Read<'a> {
    head: &'a [u8],
    record: Option<Record>,
    bytes: &'a [u8],
}

impl<'a> Read<'a> {
    fn cut_off(rest: &mut &'a [u8]) -> Read<'a> {
        let head = cut(rest, 21);
        let recorded = (2..=4).contains(&head[0]);
        let record = recorded.then(|| record(cut(rest, 67)));
        let bytes = cut(rest, usize::from(head[20]));
        Read {
            head,
            record,
            bytes,
        }
    }

    fn short(&self, at: usize) -> u16 {
        word(&self.head[at..at + 2]) as u16
    }

    fn build(&self, before: &Build) -> Build {
        let mut build = match self.head[0] {
            BEGIN => Build::default(),
            _ => before.clone(),
        };
        let i = usize::from(self.head[10]);
        (build.length, build.depth) = (self.short(6), self.short(8));
        (build.parts[i], build.fields[i], build.starts[i]) =
            (self.head[11], self.short(12), self.short(14));
        build
    }

    fn buffer(&self, before: &[u8]) -> Vec<u8> {
        let mut buffer = before.to_vec();
        let at = word(&self.head[16..20]);
        buffer[at..at + self.bytes.len()].copy_from_slice(self.bytes);
        buffer
    }

    fn call(&self) -> RawCall {
        let entries = [
            Entry::OpenBlock,
            Entry::OpenIfElse,
            Entry::OpenWhile,
            Entry::Add,
            Entry::Close,
        ];
        let none = record(&[0; 67]);
        RawCall {
            entry: entries[usize::from(self.head[0]) - 1],
            record: self.record.clone().unwrap_or(none),
        }
    }
}

/// Goes through a file with a model of its own, and holds every answer, build
/// and buffer to what is stored.
fn check(mut rest: &[u8]) -> Count {
    let mut own = Own::new(Build::default(), Vec::new());
    let mut count = Count::default();
    while !rest.is_empty() {
        let step = Read::cut_off(&mut rest);
        let (kind, lent, answer) = (step.head[0], word(&step.head[1..5]), step.head[5]);
        let (build, buffer) = (step.build(&own.build), step.buffer(&own.buffer));
        count.calls += usize::from(kind < DAMAGE);
        match kind {
            NEW => {
                count.lists += 1;
                let bytes = (0..lent).map(|i| answer.wrapping_add(i as u8));
                own = Own::new(build, bytes.collect());
                continue;
            }
            DAMAGE => own.damage(|damaged, bytes| {
                *damaged = build.clone();
                bytes.copy_from_slice(&buffer);
            }),
            BEGIN => own.begin(),
            _ => assert_eq!(own.call(&step.call(), lent), answer),
        }
        assert_eq!((&own.build, &own.buffer), (&build, &buffer));
    }
    count
}

#[test]
fn stored_lists_say_what_the_model_says() {
    let sets = [systematic().unwrap(), random()];
    for (bytes, count) in &sets {
        assert_eq!(check(bytes), *count);
        assert!(count.calls > 1_000);
    }
    assert!(sets[0].0.len() + sets[1].0.len() < 700_000);
}
