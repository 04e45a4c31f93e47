//! Counts what occurred in readings, and tells what never did.

use super::slips::{Differs, SLIPS};
use super::{Left, Numbers, Reading, ABOVE, BELOW, OUTSIDE};
use directives::words::{status, NOTICES_AT};
use std::fmt;

/// What can be wrong with a reading that is answered 10.
#[derive(Clone, Copy, Debug, PartialEq, Eq)]
enum Wrong {
    /// The limit, or the low one, is a NaN.
    Limit,
    /// The high limit is a NaN.
    High,
    /// The low limit is above the high one.
    Crossed,
    Last,
    Smoothed,
    /// The total is 0.
    Total,
    /// More is held than the total.
    Held,
}

/// What a case is told by: a reading and what it leaves.
struct Seen<'a> {
    reading: &'a Reading,
    left: &'a Left,
    alarm: u32,
    limit: f64,
    high: f64,
    /// The last and the smoothed fill before.
    last: f64,
    old: f64,
    /// The smoothed fill after.
    new: f64,
    held: u32,
    total: u64,
    /// The one thing that is wrong, where the status is 10.
    only: Option<Wrong>,
}

impl Seen<'_> {
    fn new<'a>(reading: &'a Reading, left: &'a Left) -> Seen<'a> {
        let [limit, high] = reading.alarm.limits();
        let [last, old] = reading.words.map(f64::from_bits);
        let (held, total) = reading.numbers.held_and_total().unwrap_or_default();
        let mut seen = Seen {
            reading,
            left,
            alarm: reading.alarm.number,
            limit,
            high,
            last,
            old,
            new: f64::from_bits(left.words[1]),
            held,
            total,
            only: None,
        };
        if seen.is_refused() {
            let mut wrong = seen.wrong();
            seen.only = wrong.next().filter(|_| wrong.next().is_none());
        }
        seen
    }

    /// All that is wrong, where the alarm is one and the answer is long enough.
    fn wrong(&self) -> impl Iterator<Item = Wrong> {
        let has_two = self.alarm == OUTSIDE;
        let is_wrong =
            |fill: f64| fill.is_nan() || fill.is_infinite() || is_below(fill) || is_beyond(fill);
        [
            (self.limit.is_nan(), Wrong::Limit),
            (has_two && self.high.is_nan(), Wrong::High),
            (has_two && self.limit > self.high, Wrong::Crossed),
            (is_wrong(self.last), Wrong::Last),
            (is_wrong(self.old), Wrong::Smoothed),
            (self.total == 0, Wrong::Total),
            (self.total < u64::from(self.held), Wrong::Held),
        ]
        .into_iter()
        .filter_map(|(is_wrong, what)| is_wrong.then_some(what))
    }

    fn is_taken(&self) -> bool {
        self.left.status == status::SUCCESSFUL
    }

    fn is_refused(&self) -> bool {
        self.left.status == status::INVALID_NUMBER
    }

    /// Whether the reading is taken, and this alarm sounds.
    fn sounds(&self, alarm: u32) -> bool {
        self.is_taken() && self.alarm == alarm && self.left.sounds == 1
    }

    /// Whether the reading is taken, and this alarm is silent.
    fn is_silent(&self, alarm: u32) -> bool {
        self.is_taken() && self.alarm == alarm && self.left.sounds == 0
    }

    fn is_only(&self, wrong: Wrong) -> bool {
        self.only == Some(wrong)
    }

    /// Whether a limit that is a NaN is all that is wrong.
    fn is_only_limit(&self, alarm: u32) -> bool {
        self.is_only(Wrong::Limit) && self.alarm == alarm
    }

    /// The kept fill that is all that is wrong.
    fn only_kept(&self, wrong: Wrong, is_kind: fn(f64) -> bool) -> bool {
        let fill = match wrong {
            Wrong::Last => self.last,
            _ => self.old,
        };
        self.is_only(wrong) && is_kind(fill)
    }

    /// The limits that the alarm has, if the reading is taken.
    fn has_taken_limit(&self, is_kind: fn(f64) -> bool) -> bool {
        let has_high = self.alarm == OUTSIDE;
        self.is_taken() && (is_kind(self.limit) || has_high && is_kind(self.high))
    }

    fn has_status(&self, by_answer: bool, status: u32) -> bool {
        self.answer_words().is_some() == by_answer && self.left.status == status
    }

    /// The words of the answer, if it is read by one.
    fn answer_words(&self) -> Option<usize> {
        match &self.reading.numbers {
            Numbers::Answer(words) => Some(words.len()),
            Numbers::Bytes { .. } => None,
        }
    }

    fn is_short(&self) -> bool {
        self.answer_words().is_some_and(|words| words < NOTICES_AT)
    }

    /// Whether the reading is refused and has left a NaN of such bits.
    fn leaves_nan(&self, is_kind: fn(u64) -> bool) -> bool {
        let words = self.left.words.iter();
        let mut nans = words.filter(|bits| f64::from_bits(**bits).is_nan());
        self.is_refused() && nans.any(|bits| is_kind(*bits))
    }
}

fn is_below(fill: f64) -> bool {
    fill < 0.0 && fill.is_finite()
}

fn is_beyond(fill: f64) -> bool {
    fill > 1.0 && fill.is_finite()
}

fn is_minus_zero(fill: f64) -> bool {
    fill == 0.0 && fill.is_sign_negative()
}

/// The bit that tells a quiet NaN from a signalling one.
const QUIET: u64 = 1 << 51;

/// Whether a quiet NaN has other bits than the usual ones.
fn is_quiet(nan: u64) -> bool {
    nan & QUIET != 0 && nan != f64::NAN.to_bits()
}

fn is_signalling(nan: u64) -> bool {
    nan & QUIET == 0
}

type Case = (&'static str, fn(&Seen) -> bool);

/// What should occur.
const CASES: &[Case] = &[
    ("by bytes, status 0", |s| s.has_status(false, 0)),
    ("by bytes, status 10", |s| s.has_status(false, 10)),
    ("by bytes, status 25", |s| s.has_status(false, 25)),
    ("by information, status 0", |s| s.has_status(true, 0)),
    ("by information, status 10", |s| s.has_status(true, 10)),
    ("by information, status 25", |s| s.has_status(true, 25)),
    ("above, sounds", |s| s.sounds(ABOVE)),
    ("above, silent", |s| s.is_silent(ABOVE)),
    ("below, sounds", |s| s.sounds(BELOW)),
    ("below, silent", |s| s.is_silent(BELOW)),
    ("outside, sounds below low", |s| {
        s.sounds(OUTSIDE) && s.new < s.limit
    }),
    ("outside, sounds above high", |s| {
        s.sounds(OUTSIDE) && s.new > s.high
    }),
    ("outside, silent", |s| s.is_silent(OUTSIDE)),
    ("above, silent at the limit", |s| {
        s.is_silent(ABOVE) && s.new == s.limit
    }),
    ("below, silent at the limit", |s| {
        s.is_silent(BELOW) && s.new == s.limit
    }),
    ("outside, silent at low alone", |s| {
        s.is_silent(OUTSIDE) && s.new == s.limit && s.new < s.high
    }),
    ("outside, silent at high alone", |s| {
        s.is_silent(OUTSIDE) && s.new == s.high && s.new > s.limit
    }),
    ("outside, silent at both", |s| {
        s.is_silent(OUTSIDE) && s.new == s.limit && s.new == s.high
    }),
    ("above, sounds next to the limit", |s| {
        s.sounds(ABOVE) && s.new == s.limit.next_up()
    }),
    ("below, sounds next to the limit", |s| {
        s.sounds(BELOW) && s.new == s.limit.next_down()
    }),
    ("outside, sounds next to low", |s| {
        s.sounds(OUTSIDE) && s.new == s.limit.next_down()
    }),
    ("outside, sounds next to high", |s| {
        s.sounds(OUTSIDE) && s.new == s.high.next_up()
    }),
    ("10 alone: limit of above a NaN", |s| s.is_only_limit(ABOVE)),
    ("10 alone: limit of below a NaN", |s| s.is_only_limit(BELOW)),
    ("10 alone: low a NaN", |s| s.is_only_limit(OUTSIDE)),
    ("10 alone: high a NaN", |s| s.is_only(Wrong::High)),
    ("10 alone: low above high", |s| s.is_only(Wrong::Crossed)),
    ("10 alone: last fill a NaN", |s| {
        s.only_kept(Wrong::Last, f64::is_nan)
    }),
    ("10 alone: last fill below 0", |s| {
        s.only_kept(Wrong::Last, is_below)
    }),
    ("10 alone: last fill above 1", |s| {
        s.only_kept(Wrong::Last, is_beyond)
    }),
    ("10 alone: last fill infinite", |s| {
        s.only_kept(Wrong::Last, f64::is_infinite)
    }),
    ("10 alone: smoothed fill a NaN", |s| {
        s.only_kept(Wrong::Smoothed, f64::is_nan)
    }),
    ("10 alone: smoothed fill below 0", |s| {
        s.only_kept(Wrong::Smoothed, is_below)
    }),
    ("10 alone: smoothed fill above 1", |s| {
        s.only_kept(Wrong::Smoothed, is_beyond)
    }),
    ("10 alone: smoothed fill infinite", |s| {
        s.only_kept(Wrong::Smoothed, f64::is_infinite)
    }),
    ("10 alone: total 0", |s| s.is_only(Wrong::Total)),
    ("10 alone: held above total", |s| s.is_only(Wrong::Held)),
    ("10 with a quiet NaN that stays", |s| s.leaves_nan(is_quiet)),
    ("10 with a signalling NaN that stays", |s| {
        s.leaves_nan(is_signalling)
    }),
    ("25 by the alarm alone", |s| {
        s.alarm > OUTSIDE && !s.is_short()
    }),
    ("25 by a short answer alone", |s| {
        s.alarm <= OUTSIDE && s.is_short()
    }),
    ("25 by an answer of no words", |s| {
        s.alarm <= OUTSIDE && s.answer_words() == Some(0)
    }),
    ("25 by an answer of 6 words", |s| {
        s.alarm <= OUTSIDE && s.answer_words() == Some(6)
    }),
    ("an answer of 7 words", |s| {
        s.is_taken() && s.answer_words() == Some(7)
    }),
    ("an answer of 55 words", |s| {
        s.is_taken() && s.answer_words() == Some(55)
    }),
    ("none held", |s| s.is_taken() && s.held == 0),
    ("all held", |s| s.is_taken() && u64::from(s.held) == s.total),
    ("a part held", |s| {
        s.is_taken() && s.held > 0 && u64::from(s.held) < s.total
    }),
    ("a sum of totals beyond 32 bits", |s| {
        s.is_taken() && s.total > u64::from(u32::MAX)
    }),
    ("an infinite limit", |s| s.has_taken_limit(f64::is_infinite)),
    ("a limit of -0", |s| s.has_taken_limit(is_minus_zero)),
    ("a last fill of -0", |s| {
        s.is_taken() && is_minus_zero(s.last)
    }),
    ("a smoothed fill of -0", |s| {
        s.is_taken() && is_minus_zero(s.old)
    }),
    ("a last fill that is subnormal", |s| {
        s.is_taken() && s.last.is_subnormal()
    }),
    ("a smoothed fill that is subnormal", |s| {
        s.is_taken() && s.old.is_subnormal()
    }),
    ("a smoothed fill of 1", |s| s.is_taken() && s.old == 1.0),
    ("a step that rounds to nothing", |s| {
        let fill = f64::from_bits(s.left.words[0]);
        s.is_taken() && s.new == s.old && fill != s.old
    }),
];

#[derive(Clone, Debug)]
pub struct Tally {
    pub readings: u64,
    /// For each of the cases.
    cases: Vec<u64>,
    /// For each slip, the readings that tell it apart from the right gauge.
    slips: Vec<u64>,
}

impl Default for Tally {
    fn default() -> Tally {
        Tally {
            readings: 0,
            cases: vec![0; CASES.len()],
            slips: vec![0; SLIPS.len()],
        }
    }
}

impl Tally {
    /// A reading and what it rightly leaves. Tells of a slip that should never
    /// differ and does.
    pub fn add(&mut self, reading: &Reading, left: &Left) -> Result<(), String> {
        self.readings += 1;
        let seen = Seen::new(reading, left);
        for ((_, is_case), count) in CASES.iter().zip(&mut self.cases) {
            *count += u64::from(is_case(&seen));
        }
        for (slip, count) in SLIPS.iter().zip(&mut self.slips) {
            if (slip.left)(reading) == *left {
                continue;
            }
            *count += 1;
            if slip.differs == Differs::Never {
                return Err(format!("{reading}  '{}' differs\n", slip.title));
            }
        }
        Ok(())
    }

    /// What should have occurred at least once and did not.
    pub fn missing(&self) -> Vec<String> {
        let cases = CASES.iter().zip(&self.cases);
        let never = cases.filter(|(_, count)| **count == 0);
        let mut missing: Vec<String> = never
            .map(|((title, _), _)| format!("a reading: {title}"))
            .collect();
        let slips = SLIPS.iter().zip(&self.slips);
        let never = slips.filter(|(slip, count)| slip.differs == Differs::AtTimes && **count == 0);
        missing.extend(never.map(|(slip, _)| format!("a reading that tells: {}", slip.title)));
        missing
    }
}

impl fmt::Display for Tally {
    fn fmt(&self, f: &mut fmt::Formatter) -> fmt::Result {
        writeln!(f, "{} readings of a gauge:", self.readings)?;
        for ((title, _), count) in CASES.iter().zip(&self.cases) {
            writeln!(f, "  {title:<52}{count:>9}")?;
        }
        writeln!(f, "\nReadings that tell a slip apart:")?;
        for (slip, count) in SLIPS.iter().zip(&self.slips) {
            let expected = match slip.differs {
                Differs::AtTimes => "",
                Differs::Never => "  must be none",
                Differs::Counted => "  none are expected",
            };
            writeln!(f, "  {:<52}{count:>9}{expected}", slip.title)?;
        }
        Ok(())
    }
}

#[cfg(test)]
mod tests {
    use super::*;
    use crate::gauge::readings::Readings;
    use crate::plain::Plain;

    /// What the cases call wrong is what is refused.
    #[test]
    fn a_reading_is_refused_where_something_is_wrong() {
        for reading in Readings::new(3).take(50_000) {
            let left = reading.by(&mut Plain);
            let seen = Seen::new(&reading, &left);
            let is_wrong = seen.wrong().next().is_some();
            if left.status != status::INTERNAL_ERROR {
                assert_eq!(seen.is_refused(), is_wrong, "{reading}");
            }
        }
    }
}
