//! Reads a script on standard input and writes the answers to its calls.

use directives::MAX_SCRIPT;
use std::io::{self, Read, Write};
use std::process::ExitCode;

fn main() -> ExitCode {
    match read_and_run() {
        Ok(()) => ExitCode::SUCCESS,
        Err(problem) => {
            eprintln!("second: {problem}");
            ExitCode::FAILURE
        }
    }
}

fn read_and_run() -> Result<(), String> {
    let input = read_script().map_err(|error| format!("cannot read the script: {error}"))?;
    let output = second::run(&input);
    write_output(&output).map_err(|error| format!("cannot write the answers: {error}"))
}

/// Reads all of the input, or one byte more than is allowed.
fn read_script() -> io::Result<Vec<u8>> {
    let limit = MAX_SCRIPT as u64 + 1;
    let mut input = Vec::new();
    io::stdin().lock().take(limit).read_to_end(&mut input)?;
    Ok(input)
}

fn write_output(output: &[u8]) -> io::Result<()> {
    let mut stdout = io::stdout().lock();
    stdout.write_all(output)?;
    stdout.flush()
}
