//! Ways to spoil a script.

use author::Random;
use directives::{choices, MAX_SCRIPT, SCRIPT};

/// Bytes that are likely to matter to a reader of lines and numbers.
const BYTES: [u8; 16] = *b"\n\r\t =-+019a\0_.\x7f\xff";

/// Texts where a number is expected. A few of them are good numbers.
const NUMBERS: [&str; 30] = [
    "",
    "00",
    "01",
    "000000000000000000001",
    "2",
    "10",
    "4294967295",
    "4294967296",
    "4294967297",
    "42949672950",
    "8589934592",
    "9999999999",
    "10000000000",
    "18446744073709551615",
    "18446744073709551616",
    "18446744073709551617",
    "99999999999999999999",
    "-0",
    "-1",
    "+1",
    " 1",
    "1 ",
    "1\r",
    "1\t",
    "0x1",
    "1.0",
    "1_0",
    "1e1",
    "a",
    "\u{661}",
];

/// Texts where a choice is expected. Most of them are good numbers.
const CHOICES: [&str; 16] = [
    "0",
    "1",
    "2",
    "3",
    "4",
    "5",
    "10",
    "00",
    "01",
    "255",
    "256",
    "257",
    "2147483648",
    "4294967295",
    "4294967296",
    "4294967297",
];

/// Lines that are almost like those of a script.
const STRANGE_LINES: [&str; 9] = [
    "call=get-segment",
    "call=",
    "call",
    "Call=tick",
    "call=Tick",
    "call=ticks",
    "call =tick",
    "call=tick ",
    "",
];

/// A line that a script may have, or one that is almost like it.
fn any_line(random: &mut Random) -> String {
    let directive = random.pick(SCRIPT);
    match random.below(3) {
        0 => random.pick(&STRANGE_LINES).to_string(),
        1 => format!("call={}", directive.name()),
        _ => match random.pick_any(directive.keys()) {
            Some(key) => format!("{key}={}", random.pick(&[0, 1, 4, 64])),
            None => "call=tick".to_string(),
        },
    }
}

/// The lines of a script, each with its newline if it has one.
fn lines_of(text: &[u8]) -> Vec<Vec<u8>> {
    text.split_inclusive(|&byte| byte == b'\n')
        .map(<[u8]>::to_vec)
        .collect()
}

/// Applies some change to the lines of a script. An empty one stays as it is.
fn change_lines(text: &mut Vec<u8>, change: impl FnOnce(&mut Vec<Vec<u8>>)) {
    let mut lines = lines_of(text);
    if !lines.is_empty() {
        change(&mut lines);
        *text = lines.concat();
    }
}

/// Any byte, but more often one that is likely to matter.
fn any_byte(random: &mut Random) -> u8 {
    match random.below(3) {
        0 => random.below(256) as u8,
        _ => random.pick(&BYTES),
    }
}

/// Changes, inserts or removes a few bytes.
pub fn bytes(text: &mut Vec<u8>, random: &mut Random) {
    for _ in 0..random.between(1, 3) {
        if text.is_empty() {
            return;
        }
        let place = random.below(text.len());
        let byte = any_byte(random);
        match random.below(4) {
            0 => text[place] = byte,
            1 => text[place] ^= 1 << random.below(8),
            2 => text.insert(place, byte),
            _ => drop(text.remove(place)),
        }
    }
}

/// Drops, repeats, swaps, adds, joins or splits lines.
pub fn lines(text: &mut Vec<u8>, random: &mut Random) {
    change_lines(text, |lines| {
        let place = random.below(lines.len());
        let other = random.below(lines.len());
        let next = (place + 1).min(lines.len() - 1);
        match random.below(8) {
            0 => drop(lines.remove(place)),
            1 => lines.insert(place, lines[place].clone()),
            2 => lines.swap(place, other),
            3 => lines.swap(place, next),
            4 => lines.insert(place, b"\n".to_vec()),
            5 => lines.insert(place, format!("{}\n", any_line(random)).into_bytes()),
            6 => drop(lines[place].pop()),
            _ => {
                let cut = random.below(lines[place].len());
                lines[place].insert(cut, b'\n');
            }
        }
    });
}

/// Takes the key of alignments away from one get or from all, as if there were
/// none, or puts it behind the next key.
pub fn alignments(text: &mut Vec<u8>, random: &mut Random) {
    change_lines(text, |lines| {
        let is_key = |place: &usize| lines[*place].starts_with(b"align=");
        let places: Vec<usize> = (0..lines.len()).filter(is_key).collect();
        let Some(place) = random.pick_any(&places) else {
            return;
        };
        let next = (place + 1).min(lines.len() - 1);
        match random.below(3) {
            0 => lines.retain(|line| !line.starts_with(b"align=")),
            1 => lines.swap(place, next),
            _ => drop(lines.remove(place)),
        }
    });
}

/// Puts another text where a number stands, now and then an alignment.
pub fn number(text: &mut Vec<u8>, random: &mut Random) {
    let of_alignment = random.chance(20);
    replace_value(
        text,
        random,
        |key| match of_alignment {
            true => key == b"align",
            false => key != b"call",
        },
        |number, random| match random.below(4) {
            0 => format!("0{number}"),
            1 => format!("{number}0000000000"),
            _ => random.pick(&NUMBERS).to_string(),
        },
    );
}

/// Puts another number where only a few are allowed, often the first that is
/// not.
pub fn choice(text: &mut Vec<u8>, random: &mut Random) {
    let choice = random.pick(&["order", "wait"]);
    let first_wrong = choices(choice).unwrap_or_default();
    let of_choice = |key: &[u8]| key == choice.as_bytes();
    replace_value(text, random, of_choice, |_, random| {
        match random.chance(40) {
            true => first_wrong.to_string(),
            false => random.pick(&CHOICES).to_string(),
        }
    });
}

/// Replaces the value of some line whose key is wanted, if there is one.
fn replace_value(
    text: &mut Vec<u8>,
    random: &mut Random,
    wanted: impl Fn(&[u8]) -> bool,
    value: impl Fn(&str, &mut Random) -> String,
) {
    change_lines(text, |lines| {
        let key_of = |line: &[u8]| {
            line.split(|&byte| byte == b'=')
                .next()
                .unwrap_or_default()
                .to_vec()
        };
        let is_wanted = |place: &usize| wanted(&key_of(&lines[*place]));
        let places: Vec<usize> = (0..lines.len()).filter(is_wanted).collect();
        let Some(place) = random.pick_any(&places) else {
            return;
        };
        let line = String::from_utf8_lossy(&lines[place]).into_owned();
        let (key, old) = line.trim_end().split_once('=').unwrap_or((&line, ""));
        lines[place] = format!("{key}={}\n", value(old, random)).into_bytes();
    });
}

/// Misspells the name of a call or of a key, or adds a line behind the script
/// that may be misspelt.
pub fn name(text: &mut Vec<u8>, random: &mut Random) {
    if random.chance(50) {
        text.extend_from_slice(any_line(random).as_bytes());
        text.extend_from_slice(b"\ncall=tick\n");
        return;
    }
    change_lines(text, |lines| {
        let place = random.below(lines.len());
        let line = &mut lines[place];
        let is_letter = |at: &usize| line[*at].is_ascii_alphabetic();
        let letters: Vec<usize> = (0..line.len()).filter(is_letter).collect();
        let Some(at) = random.pick_any(&letters) else {
            return;
        };
        match random.below(4) {
            0 => line[at] ^= 0x20,
            1 => line.insert(at, line[at]),
            2 => drop(line.remove(at)),
            _ => line[at] = random.pick(b"abcdefghijklmnopqrstuvwxyz-_ "),
        }
    });
}

/// Cuts the script off anywhere.
pub fn cut_off(text: &mut Vec<u8>, random: &mut Random) {
    let length = random.below(text.len() + 1);
    text.truncate(length);
}

/// Cuts the script off behind a line.
pub fn cut_off_lines(text: &mut Vec<u8>, random: &mut Random) {
    change_lines(text, |lines| lines.truncate(random.below(lines.len())));
}

/// Takes the last newline away.
pub fn last_newline(text: &mut Vec<u8>) {
    if text.last() == Some(&b'\n') {
        text.pop();
    }
}

/// Puts carriage returns in front of newlines, or in their place.
pub fn carriage_returns(text: &mut Vec<u8>, random: &mut Random) {
    change_lines(text, |lines| {
        let one = random.below(lines.len());
        let ending: &[u8] = if random.chance(80) { b"\r\n" } else { b"\r" };
        let all = random.chance(30);
        for (index, line) in lines.iter_mut().enumerate() {
            if all || index == one {
                line.pop();
                line.extend_from_slice(ending);
            }
        }
    });
}

/// Makes one line very long, around the 64 bytes that are allowed or far more.
pub fn long_line(text: &mut Vec<u8>, random: &mut Random) {
    change_lines(text, |lines| {
        let place = random.below(lines.len());
        let length = match random.below(3) {
            0 => random.pick(&[100, 128, 256, 1_000, 10_000, 30_000]),
            _ => random.between(60, 70),
        } as usize;
        let filler = random.pick(b"01a =\r\0");
        let line = &mut lines[place];
        line.pop();
        if random.chance(50) {
            // Leave only the key, so that the filler is the whole value.
            let key = line
                .iter()
                .position(|&byte| byte == b'=')
                .map_or(0, |at| at + 1);
            line.truncate(key);
        }
        line.resize(length - 1, filler);
        line.push(b'\n');
    });
}

/// Adds good calls until the script has exactly this length; it must lack at
/// least 25 bytes.
pub fn pad_to(text: &mut Vec<u8>, length: usize) {
    let tick = b"call=tick\n";
    while text.len() + 25 + tick.len() <= length {
        text.extend_from_slice(tick);
    }
    let digits = length - text.len() - 24;
    text.extend_from_slice(b"call=ident-region\nname=");
    text.extend(std::iter::repeat_n(b'1', digits));
    text.push(b'\n');
}

/// Brings a script to the allowed length, around it or far above it.
pub fn to_limit(text: &mut Vec<u8>, random: &mut Random) {
    let length = match random.below(6) {
        0 | 1 => MAX_SCRIPT,
        2 | 3 => MAX_SCRIPT + 1,
        4 => MAX_SCRIPT - 2 + random.below(6),
        _ => random.pick(&[40_000, 65_535, 65_536, 65_537, 100_000]),
    };
    match random.below(5) {
        // One long line, or one that fills up what is left.
        0 if random.chance(30) => *text = vec![b'a'; length],
        0 => text.resize(length, random.pick(b"\n1a\0")),
        // The last line has no newline.
        1 => {
            pad_to(text, length + 1);
            text.pop();
        }
        // The last call lacks its key.
        2 => {
            pad_to(text, length - 10);
            text.extend_from_slice(b"call=info\n");
        }
        _ => pad_to(text, length),
    }
}

/// Bytes or lines in no order at all.
pub fn noise(random: &mut Random) -> Vec<u8> {
    let mut text = Vec::new();
    let by_lines = random.chance(70);
    for _ in 0..random.between(1, 60) {
        if by_lines {
            text.extend_from_slice(any_line(random).as_bytes());
            text.push(b'\n');
        } else {
            text.push(any_byte(random));
        }
    }
    text
}

#[cfg(test)]
mod tests {
    use super::*;

    #[test]
    fn padding_is_exact() {
        for length in 25..100 {
            let mut text = Vec::new();
            pad_to(&mut text, length);
            assert_eq!(text.len(), length);
            assert!(!String::from_utf8(second::run(&text))
                .unwrap()
                .contains("bad="));
        }
    }

    #[test]
    fn empty_scripts_can_be_spoiled() {
        let mut random = Random::for_list(1, 1);
        let changes = [
            bytes,
            lines,
            alignments,
            number,
            choice,
            cut_off,
            cut_off_lines,
            carriage_returns,
            long_line,
        ];
        for change in changes {
            let mut text = Vec::new();
            change(&mut text, &mut random);
            assert!(text.is_empty());
        }
        last_newline(&mut Vec::new());
    }

    #[test]
    fn the_limit_is_reached_and_passed() {
        let mut seen = Vec::new();
        for index in 0..200 {
            let mut random = Random::for_list(1, index);
            let mut text = b"call=tick\n".to_vec();
            to_limit(&mut text, &mut random);
            seen.push(text.len());
        }
        for length in [
            MAX_SCRIPT - 1,
            MAX_SCRIPT,
            MAX_SCRIPT + 1,
            MAX_SCRIPT + 2,
            100_000,
        ] {
            assert!(seen.contains(&length), "{length}");
        }
    }
}
