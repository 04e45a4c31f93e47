//! The program itself: standard input to standard output.

use std::io::Write;
use std::process::{Command, Output, Stdio};
use std::thread;

/// Runs the program on an input. It may stop reading before the end.
fn run(input: &[u8]) -> Output {
    let mut child = Command::new(env!("CARGO_BIN_EXE_second"))
        .stdin(Stdio::piped())
        .stdout(Stdio::piped())
        .stderr(Stdio::piped())
        .spawn()
        .unwrap();
    let mut stdin = child.stdin.take().unwrap();
    let input = input.to_vec();
    let writer = thread::spawn(move || drop(stdin.write_all(&input)));
    let output = child.wait_with_output().unwrap();
    writer.join().unwrap();
    output
}

fn assert_writes(input: &[u8], expected: &str) {
    let output = run(input);
    assert_eq!(String::from_utf8(output.stdout).unwrap(), expected);
    assert!(output.status.success());
    assert!(output.stderr.is_empty());
}

#[test]
fn the_whole_case() {
    let script = b"call=create-region\nname=1\nstart=4\nlength=1020\npage=64\norder=0\n\
                   call=get\nid=1\nsize=65\nalign=0\nwait=0\ntask=0\npriority=0\nticks=0\n";
    assert_writes(script, "status=0\nvalue=1\nstatus=0\nvalue=64\n");
}

#[test]
fn empty_input() {
    assert_writes(b"", "");
}

#[test]
fn bad_input_still_succeeds() {
    assert_writes(b"call=tick\ncall=tock\n", "status=0\nvalue=0\nbad=2\n");
}

#[test]
fn the_longest_input_and_longer_ones() {
    let ticks = "call=tick\n".repeat(8_000);
    let answers = "status=0\nvalue=0\n";
    // 3,276 whole calls and 8 bytes of the next one.
    let expected = answers.repeat(3_276) + "bad=3277\n";
    assert_writes(&ticks.as_bytes()[..32_768], &expected);
    assert_writes(&ticks.as_bytes()[..32_769], "bad=0\n");
    assert_writes(ticks.as_bytes(), "bad=0\n");
}

#[test]
fn much_output() {
    let script = "call=info\nid=1\n".repeat(2_184);
    let answer = format!("status=4\n{}", "value=0\n".repeat(6));
    assert_writes(script.as_bytes(), &answer.repeat(2_184));
}

/// A directory as standard input cannot be read.
#[cfg(unix)]
#[test]
fn a_read_error_is_reported() {
    let directory = std::fs::File::open(env!("CARGO_MANIFEST_DIR")).unwrap();
    let output = Command::new(env!("CARGO_BIN_EXE_second"))
        .stdin(directory)
        .output()
        .unwrap();
    assert_eq!(output.status.code(), Some(1));
    assert!(output.stdout.is_empty());
    assert!(String::from_utf8_lossy(&output.stderr).contains("cannot read"));
}

/// Nothing can be written to the full device, where there is one.
#[cfg(target_os = "linux")]
#[test]
fn a_write_error_is_reported() {
    let Ok(full) = std::fs::File::options().write(true).open("/dev/full") else {
        return;
    };
    let mut child = Command::new(env!("CARGO_BIN_EXE_second"))
        .stdin(Stdio::piped())
        .stdout(full)
        .stderr(Stdio::piped())
        .spawn()
        .unwrap();
    child
        .stdin
        .take()
        .unwrap()
        .write_all(b"call=tick\n")
        .unwrap();
    let output = child.wait_with_output().unwrap();
    assert_eq!(output.status.code(), Some(1));
    assert!(String::from_utf8_lossy(&output.stderr).contains("cannot write"));
}
