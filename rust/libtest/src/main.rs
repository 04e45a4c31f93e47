//! Tests the linked library: made-up lists of calls and damaged inputs, each
//! call compared with the model, and made-up readings of a gauge, each compared
//! with plain code. See `HELP` for the arguments.

use libtest::compare::Comparison;
use libtest::ffi::Linked;
use libtest::gauge;
use std::io::{self, Write};
use std::process::ExitCode;

const HELP: &str = "\
Run made-up calls through the library and compare every word with the model.

Usage: libtest [--seed N] [--calls N] [--readings N] [--list N]

  --seed N      make up other calls and readings (default 20,241; the same seed
                gives the same ones)
  --calls N     stop after the list in which so many calls are reached (default
                200,000)
  --readings N  make so many readings of a gauge (default 1,200,000)
  --list N      run only the list with this number, as a difference names it,
                and no readings
  --help        show this text

The worked examples run first. Then lists of calls, with client writes between
them, and every function on damaged copies of the states that they pass; at last
calls with ids of every generation. After each call the returned number, the
answer, the record, every memory word and the words around the buffers are
compared. At the end the calls, statuses, cases of ids, names, page counts,
alignments, serving and kinds of regions, kinds of damage and broken clauses are
counted.

After the calls come readings of a gauge. Each is compared bit for bit with plain
code: the returned number, both fills, whether the alarm sounds and the words
around them. What occurred is counted, and for each of some slips in that code
how many readings tell it apart.

Exit code 0: no difference, and everything that should occur did.
Exit code 1: a difference, or something never occurred.
Exit code 2: wrong arguments.
";

const DEFAULT_SEED: u64 = 20_241;
const DEFAULT_CALLS: u64 = 200_000;
const DEFAULT_READINGS: u64 = 1_200_000;

/// What the command line asks for.
enum Request {
    Help,
    Run {
        seed: u64,
        calls: u64,
        readings: u64,
    },
    List {
        seed: u64,
        index: u64,
    },
}

fn main() -> ExitCode {
    let result = match parse_arguments(std::env::args().skip(1)) {
        Ok(Request::Help) => Ok(HELP.to_string()),
        Ok(Request::Run {
            seed,
            calls,
            readings,
        }) => run(seed, calls, readings),
        Ok(Request::List { seed, index }) => run_list(seed, index),
        Err(problem) => {
            eprintln!("libtest: {problem}\n\n{HELP}");
            return ExitCode::from(2);
        }
    };
    let (text, code) = match result {
        Ok(report) => (report, ExitCode::SUCCESS),
        Err(report) => (report, ExitCode::FAILURE),
    };
    let mut out = io::stdout().lock();
    match out.write_all(text.as_bytes()).and_then(|()| out.flush()) {
        Ok(()) => code,
        Err(error) => {
            eprintln!("libtest: cannot write the report: {error}");
            ExitCode::FAILURE
        }
    }
}

fn parse_arguments(arguments: impl Iterator<Item = String>) -> Result<Request, String> {
    let mut arguments = arguments;
    let (mut seed, mut calls, mut list) = (DEFAULT_SEED, DEFAULT_CALLS, None);
    let mut readings = DEFAULT_READINGS;
    while let Some(argument) = arguments.next() {
        let option = argument.as_str();
        let mut number = || {
            let text = arguments.next();
            let number = text.and_then(|text| text.parse().ok());
            number.ok_or(format!("{option} needs a number"))
        };
        match option {
            "--help" | "-h" => return Ok(Request::Help),
            "--seed" => seed = number()?,
            "--calls" => calls = number()?,
            "--readings" => readings = number()?,
            "--list" => list = Some(number()?),
            _ => return Err(format!("unknown argument {option}")),
        }
    }
    Ok(match list {
        Some(index) => Request::List { seed, index },
        None => Request::Run {
            seed,
            calls,
            readings,
        },
    })
}

/// Both kinds of answer are reports.
fn run(seed: u64, calls: u64, readings: u64) -> Result<String, String> {
    let (of_calls, mut missing) = run_calls(seed, calls)?;
    let (of_readings, never) = run_readings(seed, readings)?;
    missing.extend(never);
    let report = format!("{of_calls}\n{of_readings}");
    if missing.is_empty() {
        return Ok(report);
    }
    let lines = missing
        .iter()
        .map(|what| format!("Never occurred: {what}\n"));
    Err(report + &lines.collect::<String>())
}

fn run_list(seed: u64, index: u64) -> Result<String, String> {
    let mut library = Linked;
    let mut comparison = Comparison::new(&mut library);
    comparison.list(seed, index)?;
    Ok(format!(
        "List {index} of seed {seed}: no difference.\n{}",
        comparison.tally
    ))
}

/// A report, and what never occurred.
fn run_calls(seed: u64, calls: u64) -> Result<(String, Vec<String>), String> {
    let mut library = Linked;
    let mut comparison = Comparison::new(&mut library);
    comparison.examples()?;
    let mut index = 0;
    while comparison.tally.calls < calls {
        comparison.list(seed, index)?;
        index += 1;
    }
    // What should occur has to do so without the calls that come last.
    let missing = comparison.tally.missing();
    comparison.generations()?;
    let tally = comparison.tally;
    Ok((format!("Seed {seed}: no difference.\n{tally}"), missing))
}

/// The same of readings.
fn run_readings(seed: u64, readings: u64) -> Result<(String, Vec<String>), String> {
    let mut library = Linked;
    let mut comparison = gauge::Comparison::new(&mut library);
    comparison.run(seed, readings)?;
    let tally = comparison.tally;
    Ok((tally.to_string(), tally.missing()))
}
