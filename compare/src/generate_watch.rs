//! Jobs about open flags: what opens, closes and keeps them in rows, choices and
//! loops, readers behind it, and code that goes by what was read. Quiet jobs
//! read an open flag only where the reader fails, so that their runs stay
//! unmarked; the others read them as they come.

use crate::build::{block, if_else, ins, number, reg, repeat};
use crate::generate::fork;
use crate::job::Job;
use crate::reader::Rule;
use crate::rng::Rng;
use crate::scene::Scene;
use crate::settle::{fuelled, job_of, settled};
use crate::terms::EVALUATIONS;
use crate::tree::Instruction::*;
use crate::tree::*;
use Relation::{Eq, Ne};

// Instruction numbers, to choose from; no machine goes by these.
const OPENERS: [usize; 7] = [7, 8, 10, 12, 13, 14, 15];
/// Lzcnt64 and Tzcnt64 open overflow alone.
const HALF_OPENERS: [usize; 2] = [26, 27];
const CLOSERS: [usize; 2] = [11, 25];
const CARRY_CLOSERS: [usize; 3] = [2, 26, 27];
const KEEPERS: [usize; 12] = [1, 3, 9, 16, 17, 18, 19, 20, 21, 22, 23, 24];
const CARRY_READERS: [OfTwo; 2] = [AddCarry64, Adcx64];
const READERS: [OfTwo; 3] = [AddCarry64, Adcx64, Adox64];

pub fn job(rng: &mut Rng) -> Job {
    let wild = rng.pick(&[0, 0, 0, 0, 0, 10]);
    let mut scene = Scene::new(Rule::Today, fork(rng), wild);
    let quiet = rng.percent(50);
    let mut codes = Vec::new();
    for _ in 0..rng.below(4) {
        codes.push(scene.about_flags(quiet));
    }
    codes.push(scene.ending(quiet));
    let evaluation = rng.pick(&EVALUATIONS);
    let job = job_of(scene, &block(codes), 0);
    settled(Rule::Today, fuelled(Rule::Today, rng, job, evaluation))
}

// Rows.
impl Scene {
    fn one_of(&mut self, numbers: &[usize]) -> Code {
        let number = self.rng.pick(numbers);
        ins(self.numbered(number))
    }

    /// A comparison opens too, also that of a loop which makes no round.
    fn opener(&mut self) -> Code {
        let nothing = || block(Vec::new());
        match self.rng.below(6) {
            0 => if_else(self.comparison(), nothing(), nothing()),
            1 => repeat(Ocmp::unplaced(Ne, reg(RSP), reg(RSP)), nothing()),
            _ => self.one_of(&OPENERS),
        }
    }

    fn keepers(&mut self) -> Vec<Code> {
        let count = self.rng.pick(&[0, 0, 1, 2]);
        (0..count).map(|_| self.one_of(&KEEPERS)).collect()
    }

    fn reader(&mut self, readers: &[OfTwo]) -> Code {
        let of_two = self.rng.pick(readers);
        ins(of_two(self.destination(), self.source()))
    }

    /// A reader comes only behind what closes its flag by either evaluation.
    fn quiet_row(&mut self) -> Vec<Code> {
        let mut codes = vec![self.opener()];
        codes.extend(self.keepers());
        let readers = match self.rng.below(4) {
            0 => return codes,
            1 => {
                codes.push(self.one_of(&CARRY_CLOSERS));
                &CARRY_READERS[..]
            }
            _ => {
                codes.push(self.one_of(&CLOSERS));
                &READERS[..]
            }
        };
        codes.extend(self.keepers());
        for _ in 0..self.rng.below(3) {
            codes.push(self.reader(readers));
        }
        codes
    }

    /// Anything behind anything.
    fn loud_row(&mut self) -> Vec<Code> {
        let mut codes = Vec::new();
        for _ in 0..2 + self.rng.below(4) {
            codes.push(match self.rng.below(10) {
                0..=2 => self.opener(),
                3..=5 => self.reader(&READERS),
                6 => self.one_of(&HALF_OPENERS),
                7 => self.one_of(&CARRY_CLOSERS),
                8 => self.one_of(&CLOSERS),
                _ => self.one_of(&KEEPERS),
            });
        }
        codes
    }

    /// A flag that was opened is added to a word, and something goes by that.
    fn read_and_shown(&mut self) -> Vec<Code> {
        let place = self.destination();
        let (word, then) = self.going_by(place);
        let read = self.rng.pick(&READERS)(place, number(0));
        let set = ins(Mov64(place, number(word)));
        let kept = [
            Mov64(place, place),
            AddLea64(place, place, number(0)),
            Pxor(1, 2),
        ];
        let kept = self.rng.pick(&kept);
        let mut codes = vec![self.opener(), set, ins(kept), ins(read)];
        codes.extend(then);
        codes
    }
}

// Structures.
impl Scene {
    fn row(&mut self, quiet: bool) -> Vec<Code> {
        match (quiet, self.rng.percent(50)) {
            (true, _) => self.quiet_row(),
            (false, true) => self.loud_row(),
            (false, false) => self.read_and_shown(),
        }
    }

    fn about_flags(&mut self, quiet: bool) -> Code {
        match self.rng.below(6) {
            0 => {
                let parts = (self.row(quiet), self.row(quiet));
                if_else(self.comparison(), block(parts.0), block(parts.1))
            }
            1 => self.reading_loop(quiet),
            _ => block(self.row(quiet)),
        }
    }

    /// The counter is taken down ahead of the row or behind it.
    fn reading_loop(&mut self, quiet: bool) -> Code {
        let Some(counter) = self.counters.pop() else {
            return block(self.row(quiet));
        };
        let mut codes = self.row(quiet);
        let at = self.rng.pick(&[0, codes.len()]);
        codes.insert(at, ins(Sub64(counter, number(1))));
        self.counters.push(counter);
        let rounds = self.rng.pick(&[1, 2, 3]);
        let left = Ocmp::unplaced(Ne, counter, number(0));
        let set = ins(Mov64(counter, number(rounds)));
        block(vec![set, repeat(left, block(codes))])
    }
}

// Ends.
impl Scene {
    /// Done, a fault, or a loop that only fuel ends, each with any flags open.
    fn ending(&mut self, quiet: bool) -> Code {
        let mut codes = Vec::new();
        if !quiet {
            codes.extend([self.opener(), self.reader(&READERS)]);
        }
        codes.extend(self.opening(quiet));
        codes.extend(self.keepers());
        match self.rng.below(3) {
            0 => block(codes),
            1 => {
                if quiet && self.rng.percent(70) {
                    codes.push(self.opener());
                }
                codes.push(self.failing());
                block(codes)
            }
            _ => repeat(Ocmp::unplaced(Eq, reg(RSP), reg(RSP)), block(codes)),
        }
    }

    /// Nothing, both, overflow or the carry alone are open behind it. For the
    /// last an open overflow has to be read.
    fn opening(&mut self, quiet: bool) -> Vec<Code> {
        match self.rng.below(if quiet { 3 } else { 4 }) {
            0 => vec![self.one_of(&CLOSERS)],
            1 => vec![self.opener()],
            2 => vec![self.one_of(&HALF_OPENERS)],
            _ => vec![self.opener(), self.reader(&[Adox64])],
        }
    }

    /// Most often a reader, by its source or by its destination.
    fn failing(&mut self) -> Code {
        let (dst, src) = (self.destination(), self.source());
        let bad = match self.rng.below(4) {
            0 => self.absent_memory(),
            1 => self.outside_memory(),
            2 => return ins(self.rng.pick(&READERS)(reg(RSP), src)),
            _ => return ins(self.rng.pick(&READERS)(number(1), src)),
        };
        let any = self.rng.pick(&[Add64 as OfTwo, Sub64, Xor64, Lzcnt64]);
        let reader = self.rng.pick(&READERS);
        let of_two = self.rng.pick(&[any, reader, reader]);
        match self.rng.percent(50) {
            true => ins(of_two(dst, bad)),
            false => ins(of_two(bad, src)),
        }
    }
}
