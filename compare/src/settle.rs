//! Jobs out of a scene and a code, and the fuel of generated jobs: chosen after
//! what the code needs by one evaluation, and taken away where a run by either
//! would go on too long. A job that is stored is not run on the board, and its
//! fuel is the base's. A job that was drawn by last year's rule is also accepted by
//! it here, so that its fuel is what it was.

use crate::follow::Settings;
use crate::job::{parse, Job};
use crate::reader::Rule;
use crate::rng::Rng;
use crate::run::{accept_by, follow};
use crate::scene::Scene;
use crate::terms::Evaluation;
use crate::tree::Code;
use crate::writer::write;

/// Instructions and comparisons that a generated job may take.
pub const BUDGET: u64 = 20_000;
const AMPLE: u64 = 1 << 40;

/// The code with the scene's start, cells and fill.
pub fn job_of(scene: Scene, code: &Code, fuel: u32) -> Job {
    Job {
        fuel,
        fill: scene.fill,
        start: scene.start,
        cells: scene.cells,
        code: write(code),
    }
}

/// A job whose fuel stands at, below or above what it needs.
pub fn with_fuel(rng: &mut Rng, scene: Scene, code: &Code) -> Job {
    let rule = scene.rule;
    let job = fuelled(rule, rng, job_of(scene, code, 0), Evaluation::Base);
    settled(rule, job)
}

/// The fuel stands at, below or above what the job needs by the evaluation.
pub fn fuelled(rule: Rule, rng: &mut Rng, mut job: Job, evaluation: Evaluation) -> Job {
    job.fuel = match needed_fuel(rule, &job, evaluation) {
        Some(need) => fuel_near(rng, need),
        None => rng.below(12) as u32,
    };
    job
}

fn within_budget(job: &Job, evaluation: Evaluation) -> Settings {
    Settings {
        budget: BUDGET,
        ..Settings::new(job.fill, evaluation.unlimited())
    }
}

/// The least fuel at which no loop starves, unless the job goes on too long.
fn needed_fuel(rule: Rule, job: &Job, evaluation: Evaluation) -> Option<u32> {
    let code = accept_by(rule, job).ok()?;
    let settings = within_budget(job, evaluation);
    let followed = follow(job, &code, AMPLE, settings).ok()?;
    match followed.least_fuel {
        u64::MAX => Some(0),
        least => Some((AMPLE - least + 1) as u32),
    }
}

fn fuel_near(rng: &mut Rng, need: u32) -> u32 {
    match rng.below(10) {
        0 => rng.pick(&[0, 1, 2]),
        1 => need.saturating_sub(1),
        2 => rng.below(need as usize + 1) as u32,
        3 | 4 => need + 1 + rng.below(9) as u32,
        5 => rng.pick(&[1_000, 1 << 16, 1 << 31, u32::MAX - 1, u32::MAX]),
        _ => need,
    }
}

/// Takes fuel away from a job that would not end within the budget.
pub fn settled(rule: Rule, job: Job) -> Job {
    settled_by(rule, Evaluation::Base, job)
}

/// With less fuel a run by the other evaluation ends no later.
fn settled_by(rule: Rule, evaluation: Evaluation, mut job: Job) -> Job {
    let Ok(code) = accept_by(rule, &job) else {
        return job;
    };
    let settings = within_budget(&job, evaluation);
    for fuel in [job.fuel, 9, 3, 1, 0] {
        job.fuel = fuel;
        if follow(&job, &code, u64::from(fuel), settings).is_ok() {
            break;
        }
    }
    job
}

/// The same of bytes, where they are a job: cut or shifted code may be
/// accepted, with loops that the fuel was not for.
pub fn settled_bytes(rule: Rule, evaluation: Evaluation, bytes: Vec<u8>) -> Vec<u8> {
    match parse(&bytes) {
        Ok(job) => settled_by(rule, evaluation, job).to_bytes(),
        Err(_) => bytes,
    }
}

#[cfg(test)]
mod tests {
    use super::*;
    use crate::build::{block, ins, number, of_code, reg, repeat};
    use crate::generate::batch_bytes;
    use crate::run::accept;
    use crate::terms::EVALUATIONS;
    use crate::tree::Instruction::{Add64, Adox64};
    use crate::tree::{Ocmp, Relation, RAX};

    /// Rbx gets the overflow of a sum, and a loop goes on while it is 1.
    #[test]
    fn fuel_is_taken_away_for_the_board() {
        let endless = Ocmp::unplaced(Relation::Eq, reg(1), number(1));
        let codes = vec![
            ins(Add64(reg(RAX), number(1))),
            ins(Adox64(reg(1), number(0))),
            repeat(endless, block(Vec::new())),
        ];
        let job = of_code(block(codes)).reg(RAX, u64::MAX / 2).fuel(u32::MAX);
        assert_eq!(settled(Rule::Today, job.clone()), job);
        let settled = settled_bytes(Rule::Today, Evaluation::Board, job.to_bytes());
        assert_eq!(parse(&settled).unwrap(), job.fuel(9));
    }

    #[test]
    fn jobs_of_a_batch_end_soon_by_both() {
        for index in 0..400 {
            let Ok(job) = parse(&batch_bytes(3, index)) else {
                continue;
            };
            let Ok(code) = accept(&job) else { continue };
            for evaluation in EVALUATIONS {
                let settings = within_budget(&job, evaluation);
                assert!(follow(&job, &code, u64::from(job.fuel), settings).is_ok());
            }
        }
    }
}
