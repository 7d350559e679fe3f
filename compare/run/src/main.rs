//! Runs the original, the port and the paper's model in one process on the same inputs and compares every result.
//!
//!     run --seed N --cases K [--seconds S] [--only I] [--say]
//!     run --differences
//!
//! The same seed gives the same cases. A difference ends the run with exit status 1 and the command that shows it again.

mod case;
mod fixed;
mod forge;
mod intended;
mod pair;
mod same;
mod session;
mod tally;

use case::Case;
use std::io::{self, IsTerminal, Write};
use std::process::ExitCode;
use std::time::{Duration, Instant};
use tally::Tally;

struct Options {
    seed: u64,
    cases: u64,
    seconds: Option<u64>,
    only: Option<u64>,
    say: bool,
    differences: bool,
}

fn options() -> Result<Options, String> {
    let mut options = Options { seed: 1, cases: 20_000, seconds: None, only: None, say: false, differences: false };
    let mut words = std::env::args().skip(1);
    while let Some(word) = words.next() {
        match word.as_str() {
            "--say" => {
                options.say = true;
                continue;
            }
            "--differences" => {
                options.differences = true;
                continue;
            }
            _ => {}
        }
        let value = words.next().ok_or_else(|| format!("{word} needs a number"))?;
        let number = value.parse::<u64>().map_err(|_| format!("{word}: {value} is no number"))?;
        match word.as_str() {
            "--seed" => options.seed = number,
            "--cases" => options.cases = number,
            "--seconds" => options.seconds = Some(number),
            "--only" => options.only = Some(number),
            _ => return Err(format!("no such option: {word}")),
        }
    }
    Ok(options)
}

fn main() -> ExitCode {
    let options = match options() {
        Ok(options) => options,
        Err(what) => {
            eprintln!("{what}\nrun --seed N --cases K [--seconds S] [--only I] [--say]");
            return ExitCode::from(2);
        }
    };
    keep_freed_memory();
    let build = if oracle::overflow_panics() { "overflow panics" } else { "overflow wraps" };
    println!("seed {}, build of the original: {build}", options.seed);
    let outcome = match options.only {
        _ if options.differences => intended::check(true),
        Some(number) => only(&options, number),
        None => whole(&options),
    };
    match outcome {
        Ok(()) => ExitCode::SUCCESS,
        Err(what) => {
            println!("{what}");
            ExitCode::FAILURE
        }
    }
}

/// Once a block of this size was freed, the C library keeps freed images for the next case, which then need not be
/// mapped and cleared by the kernel again. The run is three times as fast.
fn keep_freed_memory() {
    drop(std::hint::black_box(vec![0u8; 31 << 20]));
}

/// One case alone, with all that it did.
fn only(options: &Options, number: u64) -> Result<(), String> {
    let mut case = Case::new(options.seed, number);
    let verdict = case.run(&mut Tally::default());
    println!("case {number}: {}, {:?}", case.chip.name, case.aim);
    for line in &case.trace {
        println!("  {line}");
    }
    verdict.map(|()| println!("no difference"))
}

fn whole(options: &Options) -> Result<(), String> {
    let began = Instant::now();
    let mut tally = Tally::default();
    let again = |what: String| format!("DIFFERENCE: {what}\nagain with: run --seed {} --cases 0", options.seed);
    intended::check(false).map_err(again)?;
    fixed::short_sums().map_err(again)?;
    fixed::damage(options.seed, &mut tally).map_err(again)?;
    println!("sums of 0, 1 and 2 bytes, and damage to each byte of block zero: {:.1} s", began.elapsed().as_secs_f64());
    if options.cases == 0 {
        return Ok(());
    }

    let began = Instant::now();
    let limit = options.seconds.map(Duration::from_secs);
    let terminal = io::stderr().is_terminal();
    let mut done = 0;
    while done < options.cases && limit.is_none_or(|limit| began.elapsed() < limit) {
        if options.say {
            eprintln!("case {done}");
        }
        let mut case = Case::new(options.seed, done);
        case.run(&mut tally).map_err(|what| difference(options.seed, done, &case, &what))?;
        done += 1;
        if terminal && !options.say && done % 500 == 0 {
            eprint!("\r{done} cases, {:.0} s", began.elapsed().as_secs_f64());
            let _ = io::stderr().flush();
        }
    }
    if terminal {
        eprint!("\r\x1b[K");
    }
    let seconds = began.elapsed().as_secs_f64();
    println!("{done} cases in {seconds:.1} s, {:.0} a minute", 60.0 * done as f64 / seconds);
    let missed = tally.report((done / 5000).max(1));
    if missed.is_empty() {
        println!("no difference; every answer was reached");
        return Ok(());
    }
    Err(format!("NOT REACHED, or too seldom:\n  {}", missed.join("\n  ")))
}

fn difference(seed: u64, number: u64, case: &Case, what: &str) -> String {
    let last = case.trace.last().map_or("making the image", String::as_str);
    format!(
        "DIFFERENCE in case {number} ({}, {:?}) at \"{last}\": {what}\nagain with: run --seed {seed} --only {number}",
        case.chip.name, case.aim
    )
}
