//! An independent second program: reads a script, runs its calls on the model
//! and writes the answers.
//!
//! It follows the same written rules as the proved program and shares no code
//! and no design with it; on every script the two outputs must be the same to
//! the byte. The model keeps who owns each page and a queue of free buffers
//! (see there), the names and keys come from the table of the directives, and
//! lines are taken from the front of the script, one by one.

use directives::{is_allowed, Answer, Call, Directive, MAX_LINE, MAX_SCRIPT};
use model::Model;

/// Runs a script over a fresh model and gives all that it writes.
pub fn run(script: &[u8]) -> Vec<u8> {
    let mut output = Vec::new();
    if script.len() > MAX_SCRIPT {
        write_line(&mut output, "bad", 0);
        return output;
    }
    let mut model = Model::fresh();
    let mut reader = Reader::new(script);
    while !reader.rest.is_empty() {
        let Some(call) = reader.call() else {
            write_line(&mut output, "bad", reader.line);
            break;
        };
        let answer = model.call(&call);
        write_answer(&mut output, call.directive(), &answer);
    }
    output
}

/// The calls of a script that it runs: those before the first bad line.
pub fn calls(script: &[u8]) -> Vec<Call> {
    if script.len() > MAX_SCRIPT {
        return Vec::new();
    }
    let mut reader = Reader::new(script);
    std::iter::from_fn(|| reader.call()).collect()
}

/// Takes a script apart from its front. A part that gives nothing has met a
/// line that is bad or missing, and `line` is its number.
struct Reader<'a> {
    /// What is not yet read.
    rest: &'a [u8],
    /// The number of the line that was asked for last; 0 before the first.
    line: u32,
}

impl<'a> Reader<'a> {
    fn new(script: &'a [u8]) -> Reader<'a> {
        Reader {
            rest: script,
            line: 0,
        }
    }

    /// Reads a line that must be there and gives it without its newline.
    fn line(&mut self) -> Option<&'a [u8]> {
        self.line += 1;
        let length = self.rest.iter().position(|&byte| byte == b'\n')?;
        let (line, rest) = self.rest.split_at(length);
        self.rest = &rest[1..];
        (length < MAX_LINE).then_some(line)
    }

    /// Reads a line `key=...` and gives what stands behind the `=`.
    fn text(&mut self, key: &str) -> Option<&'a [u8]> {
        let line = self.line()?;
        line.strip_prefix(key.as_bytes())?.strip_prefix(b"=")
    }

    /// Reads the argument of a key.
    fn argument(&mut self, key: &str) -> Option<u32> {
        let number = parse_number(self.text(key)?)?;
        is_allowed(key, number).then_some(number)
    }

    /// Reads a whole call.
    fn call(&mut self) -> Option<Call> {
        let directive = Directive::of_script(self.text("call")?)?;
        let keys = directive.keys().iter();
        let arguments: Option<Vec<u32>> = keys.map(|key| self.argument(key)).collect();
        Some(directive.call(&arguments?))
    }
}

/// Reads a decimal number below 2^32 that has no leading zero.
fn parse_number(text: &[u8]) -> Option<u32> {
    if text.is_empty() || (text.len() > 1 && text[0] == b'0') {
        return None;
    }
    text.iter().try_fold(0_u32, |number, byte| {
        let digit = byte.is_ascii_digit().then(|| u32::from(byte - b'0'))?;
        number.checked_mul(10)?.checked_add(digit)
    })
}

fn write_line(output: &mut Vec<u8>, key: &str, number: u32) {
    output.extend_from_slice(format!("{key}={number}\n").as_bytes());
}

fn write_answer(output: &mut Vec<u8>, directive: Directive, answer: &Answer) {
    write_line(output, "status", answer.status);
    match directive {
        Directive::Information => {
            for value in answer.information {
                write_line(output, "value", value);
            }
        }
        _ => write_line(output, "value", answer.value),
    }
    for notice in &answer.notices {
        write_line(output, "task", notice.task);
        write_line(output, "with", notice.status);
        write_line(output, "value", notice.address);
    }
}
