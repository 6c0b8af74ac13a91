//! The least fuel by doubling and then by halving. It leans on what is only said of
//! fuel, that more of it than is enough is enough; `least.rs`, which this is compared
//! with, does not.

use crate::answer::Outcome;
use crate::least::{Least, Report, CAP_SPENT};

/// `run` is the outcome with any fuel.
pub fn hunt(cap: u32, run: impl Fn(u32) -> Outcome) -> Least {
    let with_cap = run(cap);
    if with_cap.is_spent() {
        return Least {
            report: Report::CapSpent(CAP_SPENT),
            outcome: with_cap,
        };
    }
    // Everything below `low` is too little, and `high` is enough.
    let (mut low, mut high, mut outcome) = (0, cap, with_cap);
    let mut doubled = Some(0);
    while low < high {
        let halved = low + (high - low) / 2;
        let fuel = doubled.map_or(halved, |fuel: u32| fuel.min(high));
        let tried = run(fuel);
        match tried.is_spent() {
            true => {
                low = fuel + 1;
                doubled = doubled.map(|fuel| fuel.saturating_mul(2).max(1));
            }
            false => {
                (high, outcome) = (fuel, tried);
                doubled = None;
            }
        }
    }
    Least {
        report: Report::Fuel(high),
        outcome,
    }
}

#[cfg(test)]
mod tests {
    use super::*;
    use crate::answer::Answer;
    use crate::watch::Watch;

    /// Spent with less than `enough`; the steps tell the fuel.
    fn outcome(enough: u32, fuel: u32) -> Outcome {
        Outcome {
            answer: match fuel < enough {
                true => Answer::Spent(7),
                false => Answer::Done,
            },
            steps: u64::from(fuel),
            watch: Watch::default(),
            end: None,
        }
    }

    #[test]
    fn every_fuel_is_found() {
        let least = |report, outcome| Least { report, outcome };
        for enough in 0..40 {
            let run = |fuel| outcome(enough, fuel);
            for cap in 0..enough {
                let expected = least(Report::CapSpent(61), run(cap));
                assert_eq!(hunt(cap, run), expected);
            }
            let expected = least(Report::Fuel(enough), run(enough));
            for cap in (enough..80).chain([1 << 31, u32::MAX]) {
                assert_eq!(hunt(cap, run), expected);
            }
        }
        for enough in [1 << 31, (1 << 31) + 1, u32::MAX - 1, u32::MAX] {
            let run = |fuel| outcome(enough, fuel);
            let expected = least(Report::Fuel(enough), run(enough));
            assert_eq!(hunt(u32::MAX, run), expected);
        }
    }

    /// No fuel is run with often, and none above the cap.
    #[test]
    fn few_runs_are_made() {
        let count = std::cell::Cell::new(0);
        let run = |fuel| {
            count.set(count.get() + 1);
            assert!(fuel <= 1 << 31);
            outcome(5, fuel)
        };
        assert_eq!(hunt(1 << 31, run).report, Report::Fuel(5));
        // The cap, 0, 1, 2, 4 and 8, then 6 and 5.
        assert_eq!(count.get(), 8);
    }
}
