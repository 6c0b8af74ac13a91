//! The stored form, with rows typed by hand; and that a slip in the board's rule
//! shows in a row.

use super::*;

const LONG: usize = 50;

fn bytes() -> Vec<u8> {
    stored().unwrap().0
}

#[test]
fn the_stored_form() {
    let (bytes, rows) = stored().unwrap();
    assert_eq!((bytes.len(), rows), (LONG * 5_376, 5_376));
    assert!(bytes.len() < 300_000);
    for row in super::rows() {
        let kind = row.job().code[0];
        assert_eq!(row.job().code, [kind, 0x41, 0, 0x41, 1]);
        assert!([2, 4, 5, 6].contains(&kind));
    }
}

/// P2 by both evaluations; then AddCarry64 of 2^63-1 and 0 over all the bits, and
/// Adox64, whose sum carries by the overflow, on the board.
#[test]
fn rows_by_hand() {
    let (top, zero) = ([0xff; 8], [0; 8]);
    let (one, two) = ([1, 0, 0, 0, 0, 0, 0, 0], [2, 0, 0, 0, 0, 0, 0, 0]);
    let overflow = [0, 8, 0, 0, 0, 0, 0, 0];
    let both = [1, 8, 0, 0, 0, 0, 0, 0];
    let largest = [0xff, 0xff, 0xff, 0xff, 0xff, 0xff, 0xff, 0x7f];
    let least = [0, 0, 0, 0, 0, 0, 0, 0x80];
    let all_but_carry = [0xfe, 0xff, 0xff, 0xff, 0xff, 0xff, 0xff, 0xff];
    let typed = [
        ([2, 0], [one, one, overflow, zero, two, overflow]),
        ([2, 1], [one, one, overflow, zero, two, zero]),
        ([4, 1], [largest, zero, one, top, least, all_but_carry]),
        ([6, 1], [top, zero, both, top, zero, both]),
    ];
    let stored = bytes();
    for (head, numbers) in typed {
        let row = [head.to_vec(), numbers.concat()].concat();
        assert!(stored.chunks(LONG).any(|r| r == row), "{row:?}");
    }
}

/// A row of Add64 or AddCarry64 on the board, read back.
struct Read {
    dst: u64,
    src: u64,
    flags: u64,
    fill: u64,
    word: u64,
    after: u64,
}

fn on_the_board() -> Vec<Read> {
    let bytes = bytes();
    let rows = bytes.chunks(LONG).filter(|row| row[0] < 5 && row[1] == 1);
    let read = |row: &[u8]| {
        let number = |i: usize| u64::from_le_bytes(row[2 + 8 * i..10 + 8 * i].try_into().unwrap());
        Read {
            dst: number(0),
            src: number(1),
            flags: number(2),
            fill: number(3),
            word: number(4),
            after: number(5),
        }
    };
    rows.map(read).collect()
}

/// The flags of a row with other bits under a mask.
fn with(row: &Read, mask: u64, bits: u64) -> u64 {
    row.after & !mask | bits & mask
}

fn overflow(row: &Read, on: bool) -> u64 {
    with(row, 2048, u64::from(on) << 11)
}

fn signed_sum(row: &Read) -> i128 {
    i128::from(row.dst as i64) + i128::from(row.src as i64)
}

fn leaves(sum: i128) -> bool {
    i64::try_from(sum).is_err()
}

/// Of the two that a sum with overflow has, one sign alone.
fn overflow_of(row: &Read, sign: u64) -> u64 {
    overflow(row, row.after & 2048 != 0 && row.dst >> 63 == sign)
}

/// The flags that a row would have.
type Rule = fn(&Read) -> u64;

/// Rules with a slip in them.
const SLIPS: [(&str, Rule); 15] = [
    ("the base's", |r| r.flags & !1 | r.after & 1),
    ("overflow kept", |r| with(r, 2048, r.flags)),
    ("overflow from fill", |r| with(r, 2048, r.fill)),
    ("never an overflow", |r| overflow(r, false)),
    ("non-negative alone", |r| overflow_of(r, 0)),
    ("negative alone", |r| overflow_of(r, 1)),
    ("carry as overflow", |r| overflow(r, r.after & 1 == 1)),
    ("sign as overflow", |r| overflow(r, r.word >> 63 == 1)),
    ("no carry added", |r| overflow(r, leaves(signed_sum(r)))),
    ("carry always added", |r| {
        overflow(r, leaves(signed_sum(r) + i128::from(r.flags & 1)))
    }),
    ("the bit below", |r| with(r, 3072, (r.after & 2048) >> 1)),
    ("carry kept", |r| with(r, 1, r.flags)),
    ("carry from fill", |r| with(r, 1, r.fill)),
    ("others kept", |r| with(r, !2049, r.flags)),
    ("others cleared", |r| with(r, !2049, 0)),
];

#[test]
fn every_slip_shows() {
    let rows = on_the_board();
    assert_eq!(rows.len(), 2 * 896);
    for (name, slip) in SLIPS {
        assert!(rows.iter().any(|r| slip(r) != r.after), "{name}");
    }
}
