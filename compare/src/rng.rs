//! A small generator of numbers (splitmix64).

use crate::reader::SCALES;

pub struct Rng(u64);

fn mix(mut z: u64) -> u64 {
    z = (z ^ (z >> 30)).wrapping_mul(0xbf58_476d_1ce4_e5b9);
    z = (z ^ (z >> 27)).wrapping_mul(0x94d0_49bb_1331_11eb);
    z ^ (z >> 31)
}

impl Rng {
    pub fn new(seed: u64) -> Rng {
        Rng(seed)
    }

    /// The generator of one job: it depends on the seed and the index alone.
    pub fn of_job(seed: u64, index: u64) -> Rng {
        Rng(mix(seed.wrapping_add(0x5851_f42d_4c95_7f2d)) ^ mix(index.wrapping_add(1)))
    }

    pub fn word(&mut self) -> u64 {
        self.0 = self.0.wrapping_add(0x9e37_79b9_7f4a_7c15);
        mix(self.0)
    }

    /// A number below `bound`, which is above 0.
    pub fn below(&mut self, bound: usize) -> usize {
        ((u128::from(self.word()) * bound as u128) >> 64) as usize
    }

    pub fn percent(&mut self, chance: usize) -> bool {
        self.below(100) < chance
    }

    pub fn pick<T: Copy>(&mut self, list: &[T]) -> T {
        list[self.below(list.len())]
    }
}

/// Words at the edges of the widths in play.
const EDGES: [u64; 24] = [
    0,
    1,
    2,
    3,
    31,
    32,
    63,
    64,
    65,
    255,
    2047,
    2048,
    2049,
    (1 << 31) - 1,
    1 << 31,
    (1 << 32) - 1,
    1 << 32,
    (1 << 32) + 1,
    (1 << 63) - 1,
    1 << 63,
    (1 << 63) + 1,
    u64::MAX - 7,
    u64::MAX - 1,
    u64::MAX,
];

impl Rng {
    pub fn edge_word(&mut self) -> u64 {
        match self.below(10) {
            0..=4 => self.pick(&EDGES),
            5 => self.below(256) as u64,
            6 => 1 << self.below(64),
            7 => (1u64 << self.below(64)).wrapping_sub(1),
            _ => self.word(),
        }
    }

    /// Ones in a row: none, one or all of the bits, or those at one end.
    pub fn run_of_ones(&mut self) -> u64 {
        let low = (1 << self.below(64)) - 1;
        match self.below(5) {
            0 => 0,
            1 => 1 << self.below(64),
            2 => low,
            3 => !low,
            _ => u64::MAX,
        }
    }

    pub fn edge_half(&mut self) -> u32 {
        match self.below(4) {
            0 => self.pick(&[0, 1, 2, (1 << 31) - 1, 1 << 31, u32::MAX - 1, u32::MAX]),
            1 => self.below(4) as u32,
            _ => self.word() as u32,
        }
    }

    /// Words whose carry and overflow bits matter.
    pub fn flags_word(&mut self) -> u64 {
        match self.below(4) {
            0 => self.pick(&[0, 1, 2048, 2049]),
            1 => self.pick(&[u64::MAX, u64::MAX - 1, u64::MAX - 2048, u64::MAX - 2049]),
            2 => self.word(),
            _ => self.edge_word(),
        }
    }

    pub fn scale(&mut self) -> i16 {
        self.pick(&SCALES)
    }

    /// A scale that is none, often in one bit or one byte.
    pub fn other_scale(&mut self) -> i16 {
        match self.below(4) {
            0 => self.pick(&[0, 3, 5, 6, 7, 9, 10, 12, 16, 32, 64, 128, 255]),
            1 => self.pick(&[-1, -2, -4, -8, i16::MIN, i16::MIN + 1, i16::MAX]),
            2 => self.pick(&SCALES) + self.pick(&[1 << 8, 1 << 9, 1 << 14, -1 << 8]),
            // Its low byte is that of no scale.
            _ => self.word() as i16 | 3,
        }
    }

    pub fn edge_byte(&mut self) -> u8 {
        if self.percent(40) {
            return self.word() as u8;
        }
        self.pick(&[
            0, 1, 2, 3, 4, 5, 15, 16, 27, 31, 32, 63, 64, 127, 128, 254, 255,
        ])
    }
}
