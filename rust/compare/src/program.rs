//! Runs one of the two programs on a script.

use std::io::{self, ErrorKind, Read, Write};
use std::process::{Command, Stdio};
use std::sync::mpsc;
use std::thread;
use std::time::Duration;

/// A program that has not closed its output by then has hung.
const TIME_LIMIT: Duration = Duration::from_secs(20);

/// What a program wrote and whether it ended well.
#[derive(Clone, Debug, PartialEq, Eq)]
pub struct Run {
    pub output: Vec<u8>,
    pub success: bool,
}

/// Runs a program with the script as its standard input.
///
/// The script is written and the output is read by threads of their own, so
/// that neither side waits for the other.
pub fn run(program: &str, script: &[u8]) -> Result<Run, String> {
    let mut child = Command::new(program)
        .stdin(Stdio::piped())
        .stdout(Stdio::piped())
        .spawn()
        .map_err(|error| format!("cannot start {program}: {error}"))?;
    let mut stdin = child.stdin.take().expect("standard input is piped");
    let mut stdout = child.stdout.take().expect("standard output is piped");

    let script = script.to_vec();
    let writer = thread::spawn(move || write_script(&mut stdin, &script));
    let (sender, receiver) = mpsc::channel();
    thread::spawn(move || {
        let mut output = Vec::new();
        let read = stdout.read_to_end(&mut output).map(|_| output);
        // Nobody listens any more if the time limit has passed.
        let _ = sender.send(read);
    });

    let Ok(read) = receiver.recv_timeout(TIME_LIMIT) else {
        let _ = child.kill();
        let _ = child.wait();
        return Err(format!(
            "{program} did not end in {} seconds",
            TIME_LIMIT.as_secs()
        ));
    };
    let status = child
        .wait()
        .map_err(|error| format!("cannot wait for {program}: {error}"))?;
    let output = read.map_err(|error| format!("cannot read from {program}: {error}"))?;
    let written = writer.join().expect("the writing thread does not panic");
    written.map_err(|error| format!("cannot write to {program}: {error}"))?;
    Ok(Run {
        output,
        success: status.success(),
    })
}

/// Writes the script. A program may stop reading once it has seen that the
/// script is too long.
fn write_script(stdin: &mut impl Write, script: &[u8]) -> io::Result<()> {
    match stdin.write_all(script).and_then(|()| stdin.flush()) {
        Err(error) if error.kind() == ErrorKind::BrokenPipe => Ok(()),
        result => result,
    }
}
