//! What has to be met of the watch, and how it is told apart.

use super::*;
use crate::build::*;
use crate::follow::Settings;
use crate::job::Job;
use crate::run::{accept, answer, follow};
use crate::terms::Evaluation::{Base, Board};
use crate::tree::Instruction::*;

#[test]
fn what_has_to_be_met() {
    let lists = [end_labels(), rerun_labels()];
    assert_eq!(lists.each_ref().map(Vec::len), [3 + 1 + 28 + 6, 2 + 4 + 5]);
    let mut all = by_either(&lists.concat());
    all.push(NOT_ON_BOARD.to_string());
    all.sort();
    all.dedup();
    assert_eq!(all.len(), 2 * 49 + 1, "no label stands for two things");
    let mut tally = FillTally::default();
    assert_eq!(tally.missing().len(), 2 * (49 + 7) + 1);
    assert_eq!(tally.missing_ends().len(), 2 * 49 + 1);
    tally.not_taken = 1;
    assert!(tally.missing().is_empty());
}

fn row(instructions: &[Instruction]) -> Job {
    of_code(block(instructions.iter().copied().map(ins).collect()))
}

fn labels(job: &Job, limit: u64) -> Vec<String> {
    let code = accept(job).unwrap();
    let settings = Settings::new(job.fill, Base.limited(limit));
    let followed = follow(job, &code, u64::from(job.fuel), settings);
    labels_of(&code, &followed.unwrap())
}

#[test]
fn labels_of_runs() {
    let (a, b) = (reg(0), reg(1));
    let job = row(&[
        Sub64(a, b),
        Adox64(a, b),
        Adcx64(a, b),
        Adcx64(number(1), b),
    ]);
    assert_eq!(labels(&job, 0), ["unmarked, nothing open, stopped"]);
    let at_reader = "unmarked, stopped at Adox64 with its flag open";
    assert_eq!(labels(&job, 1), ["unmarked, both open, stopped", at_reader]);
    let marked = "marked by Adox64";
    assert_eq!(labels(&job, 2), ["marked, carry open, stopped", marked]);
    let end = "marked, nothing open, fault";
    assert_eq!(labels(&job, 9), [end, marked, READ_ELSEWHERE]);
    // At the limit, or by the fault, a reader whose flag is closed is none.
    assert_eq!(
        labels(&row(&[Adcx64(a, b)]), 0),
        ["unmarked, nothing open, stopped"]
    );
    let job = row(&[Lzcnt64(a, b), Adcx64(number(1), b)]);
    assert_eq!(labels(&job, 9), ["unmarked, overflow open, fault"]);
    let job = row(&[Lzcnt64(a, b), Adox64(number(1), b)]);
    let at_reader = "unmarked, fault at Adox64 with its flag open";
    assert_eq!(
        labels(&job, 9),
        ["unmarked, overflow open, fault", at_reader]
    );
}

/// Every label that a run can have is one that has to be met.
#[test]
fn labels_are_those_that_have_to_be_met() {
    let (a, b) = (reg(0), reg(1));
    let known = end_labels();
    let job = row(&[Paddd(1, 2), AddCarry64(a, b), Sub64(a, b), Adox64(a, b)]);
    for limit in 0..=4 {
        assert!(labels(&job, limit)
            .iter()
            .all(|label| known.contains(label)));
    }
}

/// The fill word's carry goes to Rax, which was 0.
fn reran(instructions: &[Instruction], fills: [u64; 2]) -> FillTally {
    let mut tally = FillTally::default();
    let ended = fills.map(|fill| answer(&row(instructions).fill(fill), Board.unlimited()));
    tally.reran(&Rerun {
        evaluation: Board,
        fills,
        before: &ended[0],
        after: &ended[1],
    });
    tally
}

#[test]
fn labels_of_reruns() {
    let (a, b) = (reg(0), reg(1));
    let met = |tally: &FillTally| tally.counts.0.keys().cloned().collect::<Vec<String>>();
    let marked = [Paddd(1, 2), Adcx64(a, b)];
    let other = reran(&marked, [0, 1]);
    let expected = [OTHERWISE, &part_label("registers")].map(|l| by(Board, l));
    let mut seen = met(&other);
    seen.sort_by_key(|label| label.len());
    let mut expected = expected.to_vec();
    expected.sort_by_key(String::len);
    assert_eq!(seen, expected);
    assert_eq!(met(&reran(&marked, [0, 2048])), [by(Board, ALIKE)]);
    let quiet = [Lzcnt64(a, b)];
    let tally = reran(&quiet, [0, 2049]);
    assert_eq!(tally.compared(), [0, 1, 1]);
    let expected = [
        "unmarked, closed carry did not",
        "unmarked, open overflow went with the fill word",
    ];
    assert_eq!(met(&tally), expected.map(|l| by(Board, l)));
    assert!(met(&reran(&quiet, [0, 4])).is_empty());
}

#[test]
fn marks_by_both() {
    let mut tally = FillTally::default();
    for marks in [[true, true], [false, false], [false, true]] {
        tally.by_both(&marks);
    }
    assert!(tally.counts.0.is_empty());
    tally.by_both(&[true, false]);
    assert_eq!(tally.counts.0[NOT_ON_BOARD], 1);
}
