//! Compares two programs that run scripts of memory manager calls.
//!
//! Both programs get the same made-up scripts on standard input. They must
//! write the same, to the byte. See `HELP` for the arguments.

mod damage;
mod kinds;
mod program;
mod script;
mod tally;

use directives::SCRIPT;
use model::examples::{self, Example, Step};
use program::Run;
use std::io::{self, Write};
use std::process::ExitCode;
use tally::Tally;

const HELP: &str = "\
Run two programs on the same made-up scripts and compare what they write.

Usage: compare PROGRAM SECOND [--seed N] [--scripts N]

  PROGRAM, SECOND   the two executables; each reads a script on standard input
  --seed N          make up other scripts (default 20,240; the same seed gives
                    the same scripts)
  --scripts N       how many scripts to make up (default 2,000)
  --help            show this text

The examples of the rules run first. At the first difference the script and
both outputs are shown. At the end the scripts, statuses, bad lines and cases of
ids, names, page counts, alignments, serving and kinds of regions are counted.

Exit code 0: no difference, and everything that should occur did.
Exit code 1: a difference, a program that failed, or something never occurred.
Exit code 2: wrong arguments.
";

const DEFAULT_SEED: u64 = 20_240;
const DEFAULT_SCRIPTS: u64 = 2_000;

/// What the command line asks for.
#[derive(Debug, PartialEq, Eq)]
enum Request {
    Help,
    Compare {
        programs: [String; 2],
        seed: u64,
        scripts: u64,
    },
}

fn main() -> ExitCode {
    match parse_arguments(std::env::args().skip(1)) {
        Ok(Request::Help) => write_out(HELP, ExitCode::SUCCESS),
        Ok(Request::Compare {
            programs,
            seed,
            scripts,
        }) => match compare(&programs, seed, scripts) {
            Ok(report) => write_out(&report, ExitCode::SUCCESS),
            Err(report) => write_out(&report, ExitCode::FAILURE),
        },
        Err(problem) => {
            eprintln!("compare: {problem}\n\n{HELP}");
            ExitCode::from(2)
        }
    }
}

/// Writes a text and gives the exit code, if the text could be written.
fn write_out(text: &str, code: ExitCode) -> ExitCode {
    let mut out = io::stdout().lock();
    match out.write_all(text.as_bytes()).and_then(|()| out.flush()) {
        Ok(()) => code,
        Err(error) => {
            eprintln!("compare: cannot write the report: {error}");
            ExitCode::FAILURE
        }
    }
}

fn parse_arguments(arguments: impl Iterator<Item = String>) -> Result<Request, String> {
    let mut arguments = arguments;
    let mut programs = Vec::new();
    let (mut seed, mut scripts) = (DEFAULT_SEED, DEFAULT_SCRIPTS);
    while let Some(argument) = arguments.next() {
        match argument.as_str() {
            "--help" | "-h" => return Ok(Request::Help),
            "--seed" => seed = number_after("--seed", arguments.next())?,
            "--scripts" => scripts = number_after("--scripts", arguments.next())?,
            option if option.starts_with('-') => return Err(format!("unknown option {option}")),
            _ => programs.push(argument),
        }
    }
    let programs = programs
        .try_into()
        .map_err(|_| "two programs are needed".to_string())?;
    Ok(Request::Compare {
        programs,
        seed,
        scripts,
    })
}

fn number_after(option: &str, argument: Option<String>) -> Result<u64, String> {
    let number = argument.and_then(|text| text.parse().ok());
    number.ok_or(format!("{option} needs a number"))
}

/// Compares the programs on the examples of the rules and on all scripts. Both
/// kinds of answer are reports.
fn compare(programs: &[String; 2], seed: u64, scripts: u64) -> Result<String, String> {
    let tell = |title: &str, script: &[u8], problem: String| {
        format!("{title}:\n{}\n{problem}\n", shown(script))
    };
    for example in examples::all().into_iter().filter(Example::is_of_scripts) {
        let script = script_of(&example);
        agreed_output(programs, &script)
            .map_err(|problem| tell(&format!("Example {}", example.title), &script, problem))?;
    }
    let mut tally = Tally::default();
    for index in 0..scripts {
        let (kind, script) = kinds::script(seed, index);
        match agreed_output(programs, &script) {
            Ok(output) => tally.add(kind, &script, &output),
            Err(problem) => {
                let title = format!("Script {index} of seed {seed} ({})", kind.title());
                return Err(tell(&title, &script, problem));
            }
        }
    }
    let report = format!("{scripts} scripts of seed {seed}: no difference.\n{tally}");
    let missing = tally.missing();
    if missing.is_empty() {
        return Ok(report);
    }
    let lines = missing
        .iter()
        .map(|what| format!("Never occurred: {what}\n"));
    Err(report + &lines.collect::<String>())
}

/// The calls of an example that a script can have.
fn script_of(example: &Example) -> Vec<u8> {
    let call = |step: &Step| match step {
        Step::Call(call, _) if SCRIPT.contains(&call.directive()) => Some(call.to_script()),
        _ => None,
    };
    let calls: String = example.steps.iter().filter_map(call).collect();
    calls.into_bytes()
}

/// Runs both programs on a script. Gives the output on which they agree, or
/// tells how they do not.
fn agreed_output(programs: &[String; 2], script: &[u8]) -> Result<Vec<u8>, String> {
    let first = program::run(&programs[0], script)?;
    let second = program::run(&programs[1], script)?;
    if first.success && first == second {
        return Ok(first.output);
    }
    let line = first_different_line(&first.output, &second.output);
    let place = match line {
        Some(line) => format!("The outputs differ from their line {line} on.\n"),
        None => "The outputs are the same.\n".to_string(),
    };
    Err(place + &report(&programs[0], &first) + &report(&programs[1], &second))
}

/// The number, from 1, of the first line in which two outputs differ.
fn first_different_line(first: &[u8], second: &[u8]) -> Option<usize> {
    if first == second {
        return None;
    }
    let same = first.iter().zip(second).take_while(|(a, b)| a == b).count();
    let newlines = first[..same].iter().filter(|&&byte| byte == b'\n').count();
    Some(newlines + 1)
}

fn report(program: &str, run: &Run) -> String {
    let ending = if run.success { "ended well" } else { "failed" };
    format!("{program} {ending} and wrote:\n{}\n", shown(&run.output))
}

/// A text with everything escaped but plain letters and newlines, and a mark
/// at its end.
fn shown(text: &[u8]) -> String {
    let mut shown = String::new();
    for &byte in text {
        match byte {
            b'\n' => shown.push('\n'),
            _ => shown.push_str(&byte.escape_ascii().to_string()),
        }
    }
    shown + "<end>"
}

#[cfg(test)]
mod tests {
    use super::*;

    fn parse(line: &str) -> Result<Request, String> {
        parse_arguments(line.split_whitespace().map(str::to_string))
    }

    #[test]
    fn arguments() {
        let programs = ["a".to_string(), "b".to_string()];
        let (seed, scripts) = (DEFAULT_SEED, DEFAULT_SCRIPTS);
        assert_eq!(
            parse("a b"),
            Ok(Request::Compare {
                programs: programs.clone(),
                seed,
                scripts
            })
        );
        assert_eq!(
            parse("a --seed 5 b --scripts 7"),
            Ok(Request::Compare {
                programs,
                seed: 5,
                scripts: 7
            })
        );
        assert_eq!(parse("--help"), Ok(Request::Help));
        for wrong in [
            "",
            "a",
            "a b c",
            "a b --seed",
            "a b --seed x",
            "a b --other",
        ] {
            assert!(parse(wrong).is_err(), "{wrong}");
        }
    }

    #[test]
    fn differences_are_placed() {
        assert_eq!(first_different_line(b"a\nb\n", b"a\nb\n"), None);
        assert_eq!(first_different_line(b"a\nb\n", b"a\nc\n"), Some(2));
        assert_eq!(first_different_line(b"a\n", b"a\nc\n"), Some(2));
        assert_eq!(first_different_line(b"", b"a"), Some(1));
    }

    #[test]
    fn texts_are_shown_whole() {
        assert_eq!(shown(b"a=1\r\n\xff"), "a=1\\r\n\\xff<end>");
    }
}
