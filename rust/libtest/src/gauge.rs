//! Readings of a gauge, compared bit for bit with plain code.
//!
//! A gauge is two words: the bits of the last fill of a region and of its
//! smoothed fill. A reading moves both and tells whether an alarm sounds. With
//! status 10 the words stay as they were, and the alarm is silent; with status
//! 25 nothing is changed.
//!
//! - [`readings`]: made-up readings.
//! - [`slips`]: plain code that is wrong in one thing.
//! - [`tally`]: counts what occurred.

pub mod readings;
pub mod slips;
pub mod tally;

use crate::plain::Plain;
use directives::words::{status, INFORMATION_AT, NOTICES_AT};
use readings::Readings;
use std::fmt::{self, Write};
use tally::Tally;

// The numbers of the alarms.
pub const ABOVE: u32 = 0;
pub const BELOW: u32 = 1;
pub const OUTSIDE: u32 = 2;

/// Where the free total stands in an answer.
pub const FREE_TOTAL: usize = INFORMATION_AT + 2;
/// Where the held total stands in an answer.
pub const HELD_TOTAL: usize = INFORMATION_AT + 5;

/// An alarm as a caller says it.
#[derive(Clone, Copy, Debug)]
pub struct Alarm {
    pub number: u32,
    /// The bits of the limit; of the low one where there are two.
    pub limit: u64,
    /// The bits of the high limit, which only `OUTSIDE` has.
    pub high: u64,
}

/// The functions of the library's header that read a gauge.
pub trait Gauge {
    /// Reads a gauge by the function of these numbers, and gives the status.
    fn read(
        &mut self,
        words: &mut [u64; 2],
        sounds: &mut u32,
        alarm: Alarm,
        numbers: &Numbers,
    ) -> u32;
}

/// By what a gauge is read, which is also by which function.
#[derive(Clone, Debug)]
pub enum Numbers {
    Bytes { held: u32, total: u32 },
    Answer(Vec<u32>),
}

impl Numbers {
    /// Held and total bytes. An answer that is too short has none.
    pub fn held_and_total(&self) -> Option<(u32, u64)> {
        match self {
            Numbers::Bytes { held, total } => Some((*held, u64::from(*total))),
            Numbers::Answer(words) if words.len() < NOTICES_AT => None,
            Numbers::Answer(words) => {
                let (free, held) = (words[FREE_TOTAL], words[HELD_TOTAL]);
                Some((held, u64::from(free) + u64::from(held)))
            }
        }
    }
}

/// A reading: its arguments, and the words before it.
#[derive(Clone, Debug)]
pub struct Reading {
    /// The bits of the last fill and of the smoothed one.
    pub words: [u64; 2],
    pub sounds: u32,
    pub alarm: Alarm,
    pub numbers: Numbers,
}

/// What a reading returns and leaves behind.
#[derive(Clone, Copy, Debug, PartialEq, Eq)]
pub struct Left {
    pub status: u32,
    pub words: [u64; 2],
    pub sounds: u32,
}

impl Reading {
    /// What the reading leaves by a gauge.
    pub fn by(&self, gauge: &mut impl Gauge) -> Left {
        let (mut words, mut sounds) = (self.words, self.sounds);
        let status = gauge.read(&mut words, &mut sounds, self.alarm, &self.numbers);
        Left {
            status,
            words,
            sounds,
        }
    }
}

impl fmt::Display for Reading {
    fn fmt(&self, f: &mut fmt::Formatter) -> fmt::Result {
        let name = match self.numbers {
            Numbers::Bytes { .. } => "sc_gauge_read",
            Numbers::Answer(_) => "sc_gauge_read_information",
        };
        let ([last, smoothed], sounds) = (self.words, self.sounds);
        writeln!(
            f,
            "{name} of the words {last:#018x} {smoothed:#018x} {sounds:#x}"
        )?;
        let Alarm {
            number,
            limit,
            high,
        } = self.alarm;
        writeln!(
            f,
            "  alarm {number:#x}, limit {limit:#018x}, high {high:#018x}"
        )?;
        match &self.numbers {
            Numbers::Bytes { held, total } => writeln!(f, "  held {held:#x}, total {total:#x}"),
            Numbers::Answer(words) => {
                let words: String = words.iter().map(|word| format!(" {word:#x}")).collect();
                writeln!(f, "  answer{words}")
            }
        }
    }
}

impl Gauge for Plain {
    fn read(
        &mut self,
        words: &mut [u64; 2],
        sounds: &mut u32,
        alarm: Alarm,
        numbers: &Numbers,
    ) -> u32 {
        match numbers.held_and_total() {
            Some((held, total)) => observe(words, sounds, alarm, held, total),
            None => status::INTERNAL_ERROR,
        }
    }
}

fn observe(words: &mut [u64; 2], sounds: &mut u32, alarm: Alarm, held: u32, total: u64) -> u32 {
    if alarm.number > OUTSIDE {
        return status::INTERNAL_ERROR;
    }
    *sounds = 0;
    let [last, smoothed] = words.map(f64::from_bits);
    let is_kept = is_fill(last) && is_fill(smoothed);
    if has_wrong_limits(alarm) || !is_kept || total == 0 || u64::from(held) > total {
        return status::INVALID_NUMBER;
    }
    let last = fill(held, total);
    let smoothed = smooth(smoothed, last);
    *words = [last, smoothed].map(f64::to_bits);
    *sounds = u32::from(sounds_at(alarm, smoothed));
    status::SUCCESSFUL
}

impl Alarm {
    /// The limit and the high one.
    fn limits(&self) -> [f64; 2] {
        [self.limit, self.high].map(f64::from_bits)
    }
}

fn has_wrong_limits(alarm: Alarm) -> bool {
    let [limit, high] = alarm.limits();
    match alarm.number {
        OUTSIDE => limit.is_nan() || high.is_nan() || limit > high,
        _ => limit.is_nan(),
    }
}

/// Whether it is a number from 0 to 1.
fn is_fill(x: f64) -> bool {
    (0.0..=1.0).contains(&x)
}

fn fill(held: u32, total: u64) -> f64 {
    if held == 0 {
        return 0.0;
    }
    if u64::from(held) == total {
        return 1.0;
    }
    f64::from(held) / total as f64
}

fn smooth(s: f64, x: f64) -> f64 {
    s + (x - s) * 0.25
}

fn sounds_at(alarm: Alarm, s: f64) -> bool {
    let [limit, high] = alarm.limits();
    match alarm.number {
        ABOVE => limit < s,
        BELOW => s < limit,
        _ => s < limit || high < s,
    }
}

/// Words around those of a reading that the gauge must not touch.
const GUARD: u32 = 0xa5c3_96e1;
const GUARDS: [u64; 2] = [0xa5c3_96e1_5a3c_691e; 2];

/// Compares a gauge with the plain code, and counts.
pub struct Comparison<'a, G: Gauge> {
    gauge: &'a mut G,
    pub tally: Tally,
}

impl<'a, G: Gauge> Comparison<'a, G> {
    pub fn new(gauge: &'a mut G) -> Comparison<'a, G> {
        Comparison {
            gauge,
            tally: Tally::default(),
        }
    }

    /// Makes the first so many readings of a seed.
    pub fn run(&mut self, seed: u64, readings: u64) -> Result<(), String> {
        for (number, reading) in (1..=readings).zip(Readings::new(seed)) {
            self.check(&reading)
                .map_err(|problem| format!("Seed {seed}, reading {number}:\n{problem}"))?;
        }
        Ok(())
    }

    /// Makes a reading by the gauge and compares all that it leaves.
    fn check(&mut self, reading: &Reading) -> Result<(), String> {
        let expected = reading.by(&mut Plain);
        let (left, is_guarded) = self.guarded(reading);
        if left == expected && is_guarded {
            return self.tally.add(reading, &expected);
        }
        let mut problems = reading.to_string();
        if !is_guarded {
            let _ = writeln!(problems, "  written outside the words");
        }
        let pairs = [
            ("status", u64::from(left.status), u64::from(expected.status)),
            ("last fill", left.words[0], expected.words[0]),
            ("smoothed fill", left.words[1], expected.words[1]),
            ("sounds", u64::from(left.sounds), u64::from(expected.sounds)),
        ];
        for (name, is, wanted) in pairs.iter().filter(|(_, is, wanted)| is != wanted) {
            let _ = writeln!(problems, "  {name} is {is:#x}, expected {wanted:#x}");
        }
        Err(problems)
    }

    /// What the reading leaves, and whether all words around it are untouched.
    fn guarded(&mut self, reading: &Reading) -> (Left, bool) {
        let mut words = [GUARDS, reading.words, GUARDS];
        let mut sounds = [GUARD, reading.sounds, GUARD];
        let Reading { alarm, numbers, .. } = reading;
        let status = self
            .gauge
            .read(&mut words[1], &mut sounds[1], *alarm, numbers);
        let left = Left {
            status,
            words: words[1],
            sounds: sounds[1],
        };
        (left, are_untouched(&words, &sounds))
    }
}

/// Whether the words around those of a reading are as they were.
fn are_untouched(words: &[[u64; 2]; 3], sounds: &[u32; 3]) -> bool {
    words[0] == GUARDS && words[2] == GUARDS && sounds[0] == GUARD && sounds[2] == GUARD
}

#[cfg(test)]
mod tests {
    use super::*;

    #[test]
    fn a_word_written_outside_is_seen() {
        let (words, sounds) = ([GUARDS, [0, 0], GUARDS], [GUARD, 0, GUARD]);
        assert!(are_untouched(&words, &sounds));
        for (part, at) in [(0, 0), (0, 1), (2, 0), (2, 1)] {
            let mut words = words;
            words[part][at] ^= 1;
            assert!(!are_untouched(&words, &sounds));
        }
        for at in [0, 2] {
            let mut sounds = sounds;
            sounds[at] ^= 1;
            assert!(!are_untouched(&words, &sounds));
        }
    }
}
