//! Plain code that is wrong in one thing, to show that the readings tell it
//! apart from the right one.

use super::{fill, has_wrong_limits, is_fill, smooth, sounds_at};
use super::{Alarm, Left, Numbers, Reading, ABOVE, BELOW, OUTSIDE};
use crate::plain::Plain;
use directives::words::status;

/// How often a slip should leave something else than the right gauge.
#[derive(Clone, Copy, Debug, PartialEq, Eq)]
pub enum Differs {
    AtTimes,
    Never,
    /// It is only counted.
    Counted,
}

pub struct Slip {
    pub title: &'static str,
    pub differs: Differs,
    /// What a reading leaves by it.
    pub left: fn(&Reading) -> Left,
}

pub const SLIPS: &[Slip] = &[
    Slip {
        title: "comparisons that are not strict",
        differs: Differs::AtTimes,
        left: |reading| {
            let sounds = |alarm: Alarm, _, s| sounds_at_limit(alarm, s);
            Steps { sounds, ..RIGHT }.left(reading)
        },
    },
    Slip {
        title: "smoothed as s * 0.75 + x * 0.25",
        differs: Differs::AtTimes,
        left: |reading| {
            let smooth = |s, x| s * 0.75 + x * 0.25;
            Steps { smooth, ..RIGHT }.left(reading)
        },
    },
    Slip {
        title: "smoothed exactly, and then rounded once",
        differs: Differs::AtTimes,
        left: |reading| {
            let smooth = smooth_rounded_once;
            Steps { smooth, ..RIGHT }.left(reading)
        },
    },
    // A quarter of a difference is exact, or both roundings agree.
    Slip {
        title: "smoothed by a fused multiply and add",
        differs: Differs::Counted,
        left: |reading| {
            let smooth = |s, x| f64::mul_add(x - s, 0.25, s);
            Steps { smooth, ..RIGHT }.left(reading)
        },
    },
    Slip {
        title: "limits that are a NaN taken",
        differs: Differs::AtTimes,
        left: |reading| {
            let has_wrong_limits = |alarm: Alarm| {
                let [low, high] = alarm.limits();
                alarm.number == OUTSIDE && high < low
            };
            let steps = Steps {
                has_wrong_limits,
                ..RIGHT
            };
            steps.left(reading)
        },
    },
    Slip {
        title: "the smoothed fill before compared",
        differs: Differs::AtTimes,
        left: |reading| {
            let sounds = |alarm, old, _| sounds_at(alarm, old);
            Steps { sounds, ..RIGHT }.left(reading)
        },
    },
    Slip {
        title: "only the smoothed fill checked",
        differs: Differs::AtTimes,
        left: |reading| {
            let are_kept = |_, smoothed| is_fill(smoothed);
            Steps { are_kept, ..RIGHT }.left(reading)
        },
    },
    Slip {
        title: "only the last fill checked",
        differs: Differs::AtTimes,
        left: |reading| {
            let are_kept = |last, _| is_fill(last);
            Steps { are_kept, ..RIGHT }.left(reading)
        },
    },
    Slip {
        title: "a refused reading keeps the new fills",
        differs: Differs::AtTimes,
        left: |reading| {
            let mut left = reading.by(&mut Plain);
            if let Some(fills) = refused_fills(reading, &left) {
                left.words = fills.map(f64::to_bits);
            }
            left
        },
    },
    Slip {
        title: "a refused reading sounds",
        differs: Differs::AtTimes,
        left: |reading| {
            let mut left = reading.by(&mut Plain);
            if let Some([_, smoothed]) = refused_fills(reading, &left) {
                left.sounds = u32::from(sounds_at(reading.alarm, smoothed));
            }
            left
        },
    },
    Slip {
        title: "a sum of both totals that wraps",
        differs: Differs::AtTimes,
        left: |reading| {
            let numbers = |numbers: &Numbers| {
                let (held, total) = numbers.held_and_total()?;
                Some((held, total % (1 << 32)))
            };
            Steps { numbers, ..RIGHT }.left(reading)
        },
    },
    Slip {
        title: "none held and all held divided",
        differs: Differs::Never,
        left: |reading| {
            let fill = |held, total| f64::from(held) / total as f64;
            Steps { fill, ..RIGHT }.left(reading)
        },
    },
];

/// The steps of a reading.
struct Steps {
    /// Held and total bytes.
    numbers: fn(&Numbers) -> Option<(u32, u64)>,
    has_wrong_limits: fn(Alarm) -> bool,
    /// Whether the last and the smoothed fill are such as a gauge keeps.
    are_kept: fn(f64, f64) -> bool,
    fill: fn(u32, u64) -> f64,
    smooth: fn(f64, f64) -> f64,
    /// Whether an alarm sounds, by the smoothed fill before and after.
    sounds: fn(Alarm, f64, f64) -> bool,
}

const RIGHT: Steps = Steps {
    numbers: Numbers::held_and_total,
    has_wrong_limits,
    are_kept: |last, smoothed| is_fill(last) && is_fill(smoothed),
    fill,
    smooth,
    sounds: |alarm, _, new| sounds_at(alarm, new),
};

impl Steps {
    fn left(&self, reading: &Reading) -> Left {
        let alarm = reading.alarm;
        let mut left = Left {
            status: status::INTERNAL_ERROR,
            words: reading.words,
            sounds: reading.sounds,
        };
        let numbers = (self.numbers)(&reading.numbers);
        let Some((held, total)) = numbers.filter(|_| alarm.number <= OUTSIDE) else {
            return left;
        };
        let [last, old] = reading.words.map(f64::from_bits);
        let is_wrong = (self.has_wrong_limits)(alarm) || !(self.are_kept)(last, old);
        if is_wrong || total == 0 || u64::from(held) > total {
            left.status = status::INVALID_NUMBER;
            left.sounds = 0;
            return left;
        }
        let last = (self.fill)(held, total);
        let new = (self.smooth)(old, last);
        Left {
            status: status::SUCCESSFUL,
            words: [last, new].map(f64::to_bits),
            sounds: u32::from((self.sounds)(alarm, old, new)),
        }
    }
}

fn sounds_at_limit(alarm: Alarm, s: f64) -> bool {
    let [limit, high] = alarm.limits();
    match alarm.number {
        ABOVE => limit <= s,
        BELOW => s <= limit,
        _ => s <= limit || high <= s,
    }
}

/// (3s + x) / 4 of two fills, rounded once.
fn smooth_rounded_once(s: f64, x: f64) -> f64 {
    /// 2^125: four of these are fewer than an integer of 128 bits has.
    const UNITS: f64 = (1_u128 << 125) as f64;
    /// A fill from here on is a whole number of the units.
    const LEAST: f64 = (1_u128 << 53) as f64 / UNITS;
    if [s, x].iter().any(|&fill| fill > 0.0 && fill < LEAST) {
        return smooth(s, x);
    }
    let [s, x] = [s, x].map(|fill| (fill * UNITS) as u128);
    (3 * s + x) as f64 / (4.0 * UNITS)
}

/// The fills that a refused reading would have moved to, if it has numbers.
fn refused_fills(reading: &Reading, left: &Left) -> Option<[f64; 2]> {
    let numbers = reading.numbers.held_and_total();
    let (held, total) = numbers.filter(|_| left.status == status::INVALID_NUMBER)?;
    let last = fill(held, total);
    Some([last, smooth(f64::from_bits(reading.words[1]), last)])
}

#[cfg(test)]
mod tests {
    use super::*;
    use crate::gauge::readings::Readings;

    #[test]
    fn the_right_steps_are_those_of_the_plain_code() {
        for reading in Readings::new(2).take(50_000) {
            assert_eq!(RIGHT.left(&reading), reading.by(&mut Plain), "{reading}");
        }
    }

    /// Where the steps are exact, rounding once gives the same; else it may
    /// give a neighbour.
    #[test]
    fn rounding_once_is_exact() {
        for (s, x, smoothed) in [
            (0.0, 0.0, 0.0),
            (0.0, 1.0, 0.25),
            (1.0, 0.0, 0.75),
            (1.0, 1.0, 1.0),
            (0.5, 0.25, 0.4375),
        ] {
            assert_eq!(smooth_rounded_once(s, x), smoothed);
        }
        let [s, x] = [0x3fb5_5555_5555_5555, 0x3fe5_5555_5555_5555].map(f64::from_bits);
        assert_eq!(smooth(s, x).to_bits(), 0x3fcd_5555_5555_5554);
        assert_eq!(smooth_rounded_once(s, x).to_bits(), 0x3fcd_5555_5555_5555);
    }
}
