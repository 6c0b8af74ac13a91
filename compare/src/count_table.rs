//! What Popcnt64, Lzcnt64 and Tzcnt64 give, typed by hand for the tests of both
//! machines. Neither machine's loops are used.

const EVEN_PLACES: u64 = 0x5555_5555_5555_5555;

/// A word with its ones, its zeros from the top and its zeros from the bottom.
const EDGES: [(u64, [u64; 3]); 13] = [
    (0, [0, 64, 64]),
    (1, [1, 63, 0]),
    (2, [1, 62, 1]),
    (3, [2, 62, 0]),
    (1 << 63, [1, 0, 63]),
    ((1 << 63) + 1, [2, 0, 0]),
    ((1 << 63) - 1, [63, 1, 0]),
    (u64::MAX, [64, 0, 0]),
    (u64::MAX - 1, [63, 0, 1]),
    (EVEN_PLACES, [32, 1, 0]),
    (EVEN_PLACES << 1, [32, 0, 1]),
    (0x00ff_0000_0000_0f00, [12, 8, 8]),
    (0x0000_0001_8000_0000, [2, 31, 31]),
];

/// The edges, and one bit at each of the 64 places.
pub fn words() -> Vec<(u64, [u64; 3])> {
    let one_bit = |place| (1u64 << place, [1, 63 - place, place]);
    EDGES.into_iter().chain((0..64).map(one_bit)).collect()
}

/// A fill word, then the flags that Popcnt64 leaves, and those that the other
/// two leave for a source that is not 0 and for 0.
const FLAGS: [(u64, [u64; 3]); 7] = [
    (0, [0, 0, 1]),
    (1, [0, 0, 1]),
    (2048, [0, 2048, 2049]),
    (2049, [0, 2048, 2049]),
    (u64::MAX, [u64::MAX - 2049, u64::MAX - 1, u64::MAX]),
    (u64::MAX - 1, [u64::MAX - 2049, u64::MAX - 1, u64::MAX]),
    (1 << 63 | 2, [1 << 63 | 2, 1 << 63 | 2, 1 << 63 | 3]),
];

/// Fill and source, with the flags after each of the three.
pub fn flags() -> Vec<(u64, u64, [u64; 3])> {
    let mut rows = Vec::new();
    for (fill, [ones, some, none]) in FLAGS {
        rows.push((fill, 0, [ones, none, none]));
        for word in [6, 1, 1 << 63, u64::MAX] {
            rows.push((fill, word, [ones, some, some]));
        }
    }
    rows
}
