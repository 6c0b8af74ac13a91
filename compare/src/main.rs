//! An evaluator and a builder written apart from the port, from document 01,
//! requests 2026-01 to 2026-09 and the F* text (the README says what else was
//! seen), and their comparison with it.

// Calls of the linked port are the only ones that Rust cannot check.
#![cfg_attr(not(feature = "c_target"), forbid(unsafe_code))]
#![deny(unsafe_code)]

mod answer;
mod archive;
mod batch;
mod board;
mod board_tally;
mod bound;
mod build;
mod builder;
mod bytes;
mod caps;
mod cell_lists;
mod cells;
mod checkers;
mod checks;
#[cfg(test)]
mod count_table;
mod counts;
mod damage;
mod fill_checks;
mod fill_tally;
mod fills;
mod flags;
mod follow;
mod generate;
mod generate_code;
mod generate_scales;
mod generate_sums;
mod generate_watch;
mod hunt;
mod instructions;
mod job;
mod large;
mod least;
mod least_checks;
mod least_tally;
mod limit_tally;
mod limits;
mod misses;
mod nest;
mod operands;
#[cfg(test)]
mod other;
mod places;
mod reader;
mod rng;
mod rules;
mod run;
mod scale_tally;
mod scene;
mod selfcheck;
mod settle;
mod source;
mod split_tally;
mod splits;
mod state;
mod store;
#[cfg(test)]
mod sum_table;
mod sums;
mod sweep;
mod systematic;
mod tally;
mod target;
#[cfg(feature = "c_target")]
mod target_c;
mod terms;
mod tree;
mod watch;
#[cfg(test)]
mod watch_table;
mod writer;

use crate::reader::Rule;
use crate::target::{LastYear, Own, Process, Target};
use std::fs;
use std::io::Write;
use std::process::ExitCode;

const USAGE: &str = "\
compare run JOBFILE              answer one job by this evaluator
compare batch N SEED PROGRAM     compare N generated jobs; SEED may be `new`
compare limited PROGRAM          compare systematic jobs under step limits
compare sums PROGRAM             compare sums by both evaluations, and jobs on the board
compare watched PROGRAM          compare systematic jobs with several fill words
compare fuelled PROGRAM          compare the least fuel of systematic jobs
compare selfcheck                the examples of document 01, P2 on the board and P14's
                                 least fuel
compare store N SEED DIR         write a stored set of N jobs to DIR/jobs.txt
compare systematic DIR           write the systematic jobs to DIR/systematic and scales
compare stored N SEED DIR        the same, N jobs drawn as last year to DIR/random, and
                                 what is refused of last year's to DIR/last-years-rule
compare check FILE PROGRAM       run a stored set through a program
compare store-sums DIR           write sums and their ends to DIR/sums
compare make SEED INDEX JOBFILE  write one generated job
compare builds N SEED [BUILDER]  compare N generated lists of builder calls
compare store-builds DIR         write stored lists to DIR/systematic and random
compare cells N SEED [CHECKER]   compare N generated lists of cells, and their splits
PROGRAM is a path with arguments, or `self` for this evaluator, or (built
with the feature c_target) `c` for the port linked in; for `limited`, `sums`,
`watched` and `fuelled` only these two; for `check` also `last-year` for this evaluator by
last year's rule, of which the texts that are marked as such are demanded. BUILDER
is `c`, or `self` for the rule over a build's fields; CHECKER is `c`, or `self`
for one that looks back at the cell before.";

fn main() -> ExitCode {
    let words: Vec<String> = std::env::args().skip(1).collect();
    match command(&words) {
        Ok(()) => ExitCode::SUCCESS,
        Err(why) => {
            eprintln!("{why}");
            ExitCode::FAILURE
        }
    }
}

fn command(words: &[String]) -> Result<(), String> {
    let names: Vec<&str> = words.iter().map(String::as_str).collect();
    match names[..] {
        ["run", file] => run_one(file),
        ["batch", n, seed, _, ..] => run_batch(n, seed, &words[3..]),
        ["limited", _, ..] => run_limited(&words[1..]),
        ["sums", _, ..] => run_sums(&words[1..]),
        ["watched", _, ..] => run_watched(&words[1..]),
        ["fuelled", _, ..] => run_fuelled(&words[1..]),
        ["store-sums", dir] => write_sums(dir),
        ["selfcheck"] => selfcheck::all().map(|n| println!("{n} examples hold")),
        ["store", n, seed, dir] => {
            let stored = store::choose(Rule::Today, number(n)? as usize, seed_of(seed)?)?;
            write_set(dir, "jobs.txt", store::as_text(&stored).as_bytes())
        }
        ["systematic", dir] => write_systematic(dir),
        ["stored", n, seed, dir] => {
            write_systematic(dir)?;
            write_last_years(dir, number(n)? as usize, number(seed)?)
        }
        ["check", file, _, ..] => check_set(file, &words[2..]),
        ["make", seed, index, file] => {
            let bytes = generate::batch_bytes(number(seed)?, number(index)?);
            fs::write(file, bytes).map_err(|e| format!("{file}: {e}"))
        }
        ["builds", n, seed] => run_builds(n, seed, "c"),
        ["builds", n, seed, builder] => run_builds(n, seed, builder),
        ["store-builds", dir] => {
            write_builds(dir, "systematic", builder::systematic()?)?;
            write_builds(dir, "random", builder::random())
        }
        ["cells", n, seed] => run_cells(n, seed, "c"),
        ["cells", n, seed, checker] => run_cells(n, seed, checker),
        _ => Err(USAGE.to_string()),
    }
}

fn number(word: &str) -> Result<u64, String> {
    word.parse().map_err(|_| format!("not a number: {word}"))
}

fn seed_of(word: &str) -> Result<u64, String> {
    if word != "new" {
        return number(word);
    }
    let now = std::time::SystemTime::now().duration_since(std::time::UNIX_EPOCH);
    let now = now.map_err(|e| e.to_string())?;
    Ok(rng::Rng::new(now.as_nanos() as u64).word() >> 16)
}

/// `self` is this evaluator, `c` the linked one, all else a program's path.
fn target_of(words: &[String]) -> Result<Box<dyn Target>, String> {
    match words {
        [name] if name == "self" => Ok(Box::new(Own)),
        #[cfg(feature = "c_target")]
        [name] if name == "c" => Ok(Box::new(target_c::Linked::new())),
        [program, arguments @ ..] => Ok(Box::new(Process {
            program: program.clone(),
            arguments: arguments.to_vec(),
        })),
        [] => Err("no program under test was named".to_string()),
    }
}

fn run_one(file: &str) -> Result<(), String> {
    let bytes = fs::read(file).map_err(|e| format!("{file}: {e}"))?;
    let text = answer::render(&run::answer_bytes(&bytes));
    let written = std::io::stdout().write_all(text.as_bytes());
    written.map_err(|e| e.to_string())
}

fn run_batch(n: &str, seed: &str, program: &[String]) -> Result<(), String> {
    let (jobs, seed) = (number(n)?, seed_of(seed)?);
    let mut target = target_of(program)?;
    println!("{jobs} jobs, seed {seed}");
    let tally = batch::run(jobs, seed, target.as_mut())?;
    print!("{}", tally.report());
    if jobs < batch::FULL {
        let missing = batch::missing(&tally).join(", ");
        println!("too few jobs to demand every answer; not met: {missing}");
    }
    println!("no difference, seed {seed}");
    Ok(())
}

fn run_limited(program: &[String]) -> Result<(), String> {
    let mut target = target_of(program)?;
    let pairs = systematic::limited(target.as_mut())?;
    println!("{pairs} pairs of a job and a step limit answered alike");
    Ok(())
}

fn run_sums(program: &[String]) -> Result<(), String> {
    let mut target = target_of(program)?;
    let systematic::Compared {
        rows,
        kernels,
        pairs,
        others,
    } = systematic::sums(target.as_mut())?;
    println!("{rows} sums, {kernels} kernels by both evaluations,");
    println!("{pairs} pairs of such a kernel and a step limit,");
    println!("and {others} other jobs on the board answered alike");
    Ok(())
}

fn run_watched(program: &[String]) -> Result<(), String> {
    let mut target = target_of(program)?;
    let systematic::WatchCompared {
        kernels,
        pairs,
        others,
        reruns,
        claimed,
    } = systematic::watched(target.as_mut())?;
    println!("{kernels} kernels and {others} other jobs by both evaluations,");
    println!("{pairs} pairs of such a kernel and a step limit,");
    println!("and {reruns} runs of these with other fill words answered alike,");
    println!("{claimed} of them of unmarked runs, which they had to follow from");
    Ok(())
}

fn run_fuelled(program: &[String]) -> Result<(), String> {
    let mut target = target_of(program)?;
    let systematic::FuelCompared {
        kernels,
        others,
        searches,
        reports,
    } = systematic::fuelled(target.as_mut())?;
    println!("{kernels} kernels and {others} other jobs by both evaluations,");
    println!("in {searches} searches on some terms, and of these");
    println!("{reports} reports of a least fuel up to a cap answered alike");
    Ok(())
}

fn write_sums(dir: &str) -> Result<(), String> {
    let (stored, rows) = systematic::stored_sums()?;
    write_set(dir, "sums", &stored)?;
    println!("{rows} sums");
    Ok(())
}

fn run_builds(n: &str, seed: &str, name: &str) -> Result<(), String> {
    let (lists, seed) = (number(n)?, seed_of(seed)?);
    let mut builder = builder::builder_of(name)?;
    println!("{lists} call lists, seed {seed}");
    let tally = builder::compare(lists, seed, builder.as_mut());
    print!("{}", tally.report());
    tally.verdict()?;
    println!("no difference, seed {seed}");
    Ok(())
}

fn run_cells(n: &str, seed: &str, name: &str) -> Result<(), String> {
    let (lists, seed) = (number(n)?, seed_of(seed)?);
    let checker = checkers::checker_of(name)?;
    println!("{lists} lists of cells, seed {seed}");
    let tally = splits::compare(lists, seed, checker)?;
    print!("{}", tally.report());
    tally.verdict()?;
    println!("no difference, seed {seed}");
    Ok(())
}

fn write_builds(dir: &str, name: &str, (stored, count): builder::Stored) -> Result<(), String> {
    write_set(dir, name, &stored)?;
    println!("{name}: {} lists, {} calls", count.lists, count.calls);
    Ok(())
}

fn write_systematic(dir: &str) -> Result<(), String> {
    let systematic::Records { systematic, scales } = systematic::records()?;
    write_set(dir, "systematic", &store::as_bytes(&systematic))?;
    write_set(dir, "scales", &store::as_bytes(&scales))?;
    println!("{} systematic jobs", systematic.len());
    println!("{} jobs about scales", scales.len());
    Ok(())
}

fn write_last_years(dir: &str, count: usize, seed: u64) -> Result<(), String> {
    let archive::LastYears { random, archived } = archive::last_years(count, seed)?;
    write_set(dir, "random", &store::as_bytes(&random))?;
    write_set(dir, "last-years-rule", &archive::as_bytes(&archived))?;
    println!("{} random jobs", random.len());
    println!("{} jobs by last year's rule", archived.len());
    Ok(())
}

fn write_set(dir: &str, name: &str, stored: &[u8]) -> Result<(), String> {
    let file = format!("{dir}/{name}");
    fs::create_dir_all(dir).map_err(|e| format!("{dir}: {e}"))?;
    fs::write(&file, stored).map_err(|e| format!("{file}: {e}"))
}

fn check_set(file: &str, program: &[String]) -> Result<(), String> {
    let stored = fs::read(file).map_err(|e| format!("{file}: {e}"))?;
    let (rule, mut target): (Rule, Box<dyn Target>) = match program {
        [name] if name == "last-year" => (Rule::LastYear, Box::new(LastYear)),
        _ => (Rule::Today, target_of(program)?),
    };
    let records = store::parse(&stored, rule)?;
    store::check(&records, target.as_mut())?;
    println!("{} stored jobs answered alike", records.len());
    Ok(())
}
