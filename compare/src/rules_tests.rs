//! How the rules go together, and that a slip in either would be told.

use super::*;
use crate::build::*;
use crate::generate::{batch_bytes, job_bytes};
use crate::reader::read_by;
use crate::run::answer_bytes;
use crate::tree::Instruction::Mul64;

/// Every 16-bit number as a scale: four are accepted, the others are 7; by last year's
/// rule all are accepted, and all with the same number.
#[test]
fn every_scale() {
    let mut accepted = Vec::new();
    for scale in i16::MIN..=i16::MAX {
        let job = plain(Mul64(at_index(0, scale, 1, 0)));
        let last_year = read_by(Rule::LastYear, &job.code);
        assert_eq!(last_year, Ok(ins(Mul64(at_index(0, scale, 1, 0)))));
        match read_by(Rule::Today, &job.code) {
            Ok(code) => {
                assert_eq!(Ok(code), last_year);
                accepted.push(scale);
            }
            Err(trouble) => assert_eq!((trouble.number, trouble.place), (7, 3)),
        }
    }
    assert_eq!(accepted, [1, 2, 4, 8]);
}

#[test]
fn the_rules_agree_on_generated_jobs() {
    for index in 0..800 {
        for bytes in [batch_bytes(5, index), job_bytes(Rule::LastYear, 5, index)] {
            assert_eq!(agree(&bytes, &answer_bytes(&bytes)), Ok(()));
        }
    }
}

/// A While whose comparison has a bad scale, with this length.
fn looped(length: u8) -> Vec<u8> {
    let mut code = vec![0x22, length, 0, 0, 0, 0x30, 0x41, 0];
    code.extend([0x44, 1, 3, 0, 2, 0, 0, 0, 0, 0, 0, 0, 0]);
    code.extend([0x10, 0, 1]);
    code
}

/// The lengths of a While are judged behind its comparison, and stand ahead of it.
#[test]
fn lengths_stand_ahead_of_the_scale() {
    let code = looped(4);
    let trouble = read_by(Rule::LastYear, &code).unwrap_err();
    assert_eq!((trouble.number, trouble.place), (6, 0));
    assert!(comes_behind(&code, 10, trouble));
    assert!(!comes_behind(&code, 40, trouble));
    let trouble = |number, place| Trouble { number, place };
    assert!(!comes_behind(&code, 10, trouble(4, 9)));
    assert!(!comes_behind(&code, 10, trouble(7, 10)));
    assert!(!comes_behind(&code, 10, trouble(6, 5)));
    assert!(comes_behind(&code, 10, trouble(4, 12)));
    assert!(comes_behind(&code, 10, trouble(15, 0)));
}

#[test]
fn a_slip_is_told() {
    let sound = plain(Mul64(at_index(0, 8, 1, 0))).to_bytes();
    let bad = plain(Mul64(at_index(0, 3, 1, 0))).to_bytes();
    let refused = |number, place| Outcome::refused(Trouble { number, place });
    assert_eq!(agree(&bad, &refused(7, 3)), Ok(()));
    assert!(agree(&bad, &refused(7, 4)).is_err());
    assert!(agree(&bad, &refused(4, 2)).is_err());
    assert!(agree(&sound, &refused(7, 3)).is_err());
    assert!(agree(&sound, &answer_bytes(&bad)).is_err());
}
