//! Holds the proved gate's static library against this crate's reading of the documents: the
//! same lines, the same blocks of lines, the same memories, the same order messages, the same
//! buffers on both sides.
//!
//!     compare --worker PROGRAM [--through SCRIPT] [--jobs N] [--to FILE]
//!             [RECORDS [MEMORIES [SEED]]]
//!     compare --worker PROGRAM [--through SCRIPT] --try-wrong [--to FILE] [SEED]
//!     compare --write-days DIRECTORY SEED COUNT
//!
//! On the first difference it looks for the smallest input that shows one, writes it to a
//! file and ends with 1. `--try-wrong` makes one of the sides wrong on purpose, in one way
//! after the other, and says what was noticed.

#![forbid(unsafe_code)]

mod alter;
mod blocks;
mod count;
mod day;
mod lapse;
mod lengths;
mod map;
mod memories;
mod messages;
mod orders;
mod report;
mod run;
mod shrink;
mod slip;
mod states;
mod store;
mod texts;
mod trial;
mod worker;
mod wrong;

use std::path::PathBuf;
use std::process::ExitCode;
use std::time::{Duration, Instant};

use run::{Met, Settings, Work};
use worker::Program;
use wrong::Wrong;

/// In what two sides differ, and after how many steps of a day.
#[derive(Debug)]
pub struct Difference {
    pub steps: usize,
    pub text: String,
}

const USAGE: &str = "usage: compare --worker PROGRAM [--through SCRIPT] [--jobs N] [--to FILE] \
    [RECORDS [MEMORIES [SEED]]]
       compare --worker PROGRAM [--through SCRIPT] --try-wrong [--to FILE] [SEED]
       compare --write-days DIRECTORY SEED COUNT";

fn main() -> ExitCode {
    match start() {
        Ok(code) => code,
        Err(text) => {
            eprintln!("compare: {text}");
            ExitCode::from(2)
        }
    }
}

fn number<T: std::str::FromStr>(text: Option<&String>, default: T) -> Result<T, String> {
    match text {
        Some(text) => text.parse().map_err(|_| format!("no number: {text}\n{USAGE}")),
        None => Ok(default),
    }
}

fn start() -> Result<ExitCode, String> {
    let (mut worker, mut through, mut to) = (None, None, None);
    let (mut try_wrong, mut write_days) = (false, false);
    let mut jobs = std::thread::available_parallelism().map_or(1, |n| n.get());
    let mut rest = Vec::new();
    let mut arguments = std::env::args().skip(1);
    while let Some(argument) = arguments.next() {
        let mut value = || arguments.next().ok_or(USAGE.to_string());
        match argument.as_str() {
            "--worker" => worker = Some(PathBuf::from(value()?)),
            "--through" => through = Some(PathBuf::from(value()?)),
            "--to" => to = Some(PathBuf::from(value()?)),
            "--jobs" => jobs = number(Some(&value()?), jobs)?,
            "--try-wrong" => try_wrong = true,
            "--write-days" => write_days = true,
            option if option.starts_with('-') => return Err(format!("{option}\n{USAGE}")),
            _ => rest.push(argument),
        }
    }
    if write_days {
        let directory = rest.first().ok_or(USAGE)?;
        let (seed, count) = (number(rest.get(1), 1)?, number(rest.get(2), 10)?);
        return store::write(directory.as_ref(), seed, count).map(|()| ExitCode::SUCCESS);
    }
    let patience = Duration::from_secs(120);
    let program = Program { through, worker: worker.ok_or(USAGE)?, wrong: 0, patience };
    if try_wrong {
        return trial::all(&program, number(rest.first(), 1)?, to.as_deref());
    }
    let settings =
        Settings { program, wrong: Wrong::No, seed: number(rest.get(2), 1)?, jobs, progress: true };
    let (records, memories) = (number(rest.first(), 1_000_000)?, number(rest.get(1), 100_000)?);
    let to = to.unwrap_or_else(|| format!("difference-{}.txt", settings.seed).into());
    compare(&settings, records, memories, &to)
}

fn compare(
    settings: &Settings,
    records: usize,
    memories: usize,
    to: &std::path::Path,
) -> Result<ExitCode, String> {
    let begun = Instant::now();
    // As many order messages are drawn as records; a quarter of the records and of the memories
    // are lent in blocks as well.
    let work = Work::plan(settings.seed, records, memories).and_messages(records).and_blocks(
        settings.seed,
        records / 4,
        memories / 4,
    );
    let outcome = run::run(settings, &work)?;
    let (seconds, seed) = (begun.elapsed().as_secs(), settings.seed);
    if let Some(found) = outcome.found {
        eprintln!("a difference: {}", found.difference.text);
        eprintln!("looking for the smallest input");
        let least = run::shrink(settings, &found);
        std::fs::write(to, run::report(settings, &found, &least))
            .map_err(|error| format!("{}: {error}", to.display()))?;
        println!("seed {seed}: a difference, see {}", to.display());
        return Ok(ExitCode::FAILURE);
    }
    let Met { counts, tally, answers, ends } = &outcome.met;
    print!("records by kind and number:\n{}", counts.text());
    let never = counts.never();
    if !never.is_empty() {
        println!("never met: {}", never.join(", "));
    }
    println!("memories by the state rule that they break:");
    for (rule, n) in &tally.refused {
        println!("{n:8}  {rule}");
    }
    let (good, refused) = (tally.good, tally.refused_all());
    println!("{good:8}  none");
    println!("records on memories by number:");
    let numbers: Vec<String> =
        tally.numbers.iter().map(|(number, n)| format!("{number:8} {n:7}")).collect();
    for row in numbers.chunks(6) {
        println!("{}", row.concat());
    }
    print!("{}{}", answers.text(), ends.text());
    let never = [answers.never(), ends.never()].concat();
    if !never.is_empty() {
        println!("never met: {}", never.join(", "));
    }
    println!(
        "{records} records in {} days, {memories} memories ({good} good, {refused} refused), \
         {} order messages, {} lines in {} blocks, {} buffer lengths, {} line lengths, \
         {seconds} s, seed {seed}: no difference",
        work.days,
        answers.all(),
        ends.lines,
        ends.all(),
        lengths::MOST_BUFFER + 1,
        lengths::MOST_LINE + 1,
    );
    Ok(ExitCode::SUCCESS)
}
