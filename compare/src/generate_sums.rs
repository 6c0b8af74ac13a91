//! Jobs about sums: Add64 and AddCarry64 over words near the ends of the signed
//! range, behind flags of every kind, and code on which the overflow that they
//! leave has an effect: a word, a choice, a loop, a fault.

use crate::build::{at_reg, block, if_else, ins, number, reg, repeat};
use crate::generate::fork;
use crate::job::Job;
use crate::reader::Rule;
use crate::rng::Rng;
use crate::scene::Scene;
use crate::settle::{fuelled, job_of, settled};
use crate::terms::EVALUATIONS;
use crate::tree::Instruction::*;
use crate::tree::*;
use Relation::{Eq, Ne};

pub fn job(rng: &mut Rng) -> Job {
    let wild = rng.pick(&[0, 0, 0, 0, 5, 20]);
    let mut scene = Scene::new(Rule::Today, fork(rng), wild);
    let mut codes = Vec::new();
    for _ in 0..=rng.below(6) {
        codes.push(scene.about_sums());
    }
    codes.extend(scene.codes(rng.below(4), 2));
    let evaluation = rng.pick(&EVALUATIONS);
    let job = job_of(scene, &block(codes), 0);
    settled(Rule::Today, fuelled(Rule::Today, rng, job, evaluation))
}

// Words and flags.
impl Scene {
    /// Two words, often of one sign and with a sum at or beside an end of the
    /// signed range, most often where a carry makes the difference.
    fn summands(&mut self) -> [u64; 2] {
        let turned = u64::from(self.rng.percent(50)) << 63;
        let a = self.rng.edge_word() ^ turned;
        if self.rng.percent(30) {
            return [a, self.rng.edge_word()];
        }
        let past: u64 = self.rng.pick(&[0, 1, 1, 1, 2, 3]);
        [a, ((1 << 63) - 2 + past).wrapping_sub(a)]
    }

    /// The carry (by Adcx64) or the overflow (by Adox64) is set or cleared, and
    /// no other flag.
    fn put_flag(&mut self, by: OfTwo) -> Vec<Code> {
        let place = self.destination();
        let (word, more) = self.rng.pick(&[(u64::MAX, 1), (0, 0)]);
        vec![
            ins(Mov64(place, number(word))),
            ins(by(place, number(more))),
        ]
    }
}

// Sums.
impl Scene {
    fn about_sums(&mut self) -> Code {
        match self.rng.below(5) {
            0 => block(self.long_sum()),
            1 => self.summing_loop(),
            _ => block(self.one_sum()),
        }
    }

    /// The words are set without touching the flags that the sum meets.
    fn one_sum(&mut self) -> Vec<Code> {
        let mut codes = Vec::new();
        for by in [Adcx64 as OfTwo, Adox64] {
            if self.rng.percent(30) {
                codes.extend(self.put_flag(by));
            }
        }
        let ([a, b], dst) = (self.summands(), self.destination());
        let mut src = number(b);
        if self.rng.percent(60) {
            src = self.destination();
            codes.push(ins(Mov64(src, number(b))));
        }
        codes.push(ins(Mov64(dst, number(a))));
        let sum: OfTwo = self.rng.pick(&[Add64, AddCarry64]);
        match self.rng.below(4) {
            0 => codes.push(ins(sum(dst, src))),
            _ => codes.extend(self.shown(sum(dst, src))),
        }
        codes
    }

    /// Word by word, each with the carry of the one before; what the last one's
    /// overflow is may go into a word.
    fn long_sum(&mut self) -> Vec<Code> {
        let mut codes = Vec::new();
        for turn in 0..2 + self.rng.below(3) {
            let ([word, _], src) = (self.summands(), self.source());
            let src = self.rng.pick(&[src, number(word)]);
            let sum: OfTwo = match turn {
                0 => self.rng.pick(&[Add64, AddCarry64]),
                _ => AddCarry64,
            };
            codes.push(ins(sum(self.destination(), src)));
        }
        if self.rng.percent(60) {
            codes.push(ins(Adox64(self.destination(), number(0))));
        }
        codes
    }

    fn summing_loop(&mut self) -> Code {
        let Some(counter) = self.counters.pop() else {
            return block(self.one_sum());
        };
        let mut codes = match self.rng.percent(50) {
            true => self.one_sum(),
            false => self.long_sum(),
        };
        codes.push(ins(Sub64(counter, number(1))));
        self.counters.push(counter);
        let rounds = self.rng.pick(&[1, 2, 3]);
        let left = Ocmp::unplaced(Ne, counter, number(0));
        let set = ins(Mov64(counter, number(rounds)));
        block(vec![set, repeat(left, block(codes))])
    }
}

// What the overflow has an effect on.
impl Scene {
    /// The sum, and its overflow added to a word that something then goes by.
    fn shown(&mut self, sum: Instruction) -> Vec<Code> {
        let place = self.destination();
        let (word, then) = self.going_by(place);
        let (set, sum) = (ins(Mov64(place, number(word))), ins(sum));
        let read = ins(Adox64(place, number(0)));
        let mut codes = match self.rng.percent(60) {
            true => vec![set, sum, read],
            false => vec![sum, set, read],
        };
        codes.extend(then);
        codes
    }

    /// A word, and codes for which it matters whether one was added to it.
    pub fn going_by(&mut self, place: Operand) -> (u64, Vec<Code>) {
        let one_more = Ocmp::unplaced(Eq, place, number(1));
        let (dst, xmm) = (self.destination(), self.rng.below(16) as Xmm);
        match self.rng.below(8) {
            0 => (self.rng.edge_word(), Vec::new()),
            1 => (self.rng.edge_word(), vec![ins(Mov64(dst, place))]),
            2 => (self.rng.edge_word(), vec![ins(Pinsrq(xmm, place, 1))]),
            3 => (63, vec![ins(Shl64(dst, place))]),
            4 => (0, vec![repeat(one_more, ins(Mov64(place, number(7))))]),
            5 => self.addressed_by(place),
            _ => {
                let parts = (self.part_of_choice(), self.part_of_choice());
                (0, vec![if_else(one_more, parts.0, parts.1)])
            }
        }
    }

    /// A register that is the address of a cell, or out of the range, unless one
    /// is added.
    fn addressed_by(&mut self, place: Operand) -> (u64, Vec<Code>) {
        let (Operand::Reg(r), dst) = (place, self.destination()) else {
            return (0, Vec::new());
        };
        let load = |offset| vec![ins(Mov64(dst, at_reg(r, offset)))];
        if self.data_cells.is_empty() || self.rng.percent(20) {
            return (0, load(-1));
        }
        (self.rng.pick(&self.data_cells), load(0))
    }

    fn part_of_choice(&mut self) -> Code {
        let nothing = block(Vec::new());
        match self.rng.below(6) {
            0 => nothing,
            1 => ins(Shl64(self.destination(), number(64))),
            2 => repeat(Ocmp::unplaced(Eq, reg(RSP), reg(RSP)), nothing),
            3 => self.instruction(),
            _ => block(self.codes(2, 1)),
        }
    }
}
