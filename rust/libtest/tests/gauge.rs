//! Tests of the comparison of gauges itself: the plain gauge passes it, and
//! gauges with a fault do not.

use directives::words::status;
use libtest::gauge::slips::{Differs, SLIPS};
use libtest::gauge::tally::Tally;
use libtest::gauge::{Alarm, Comparison, Gauge, Left, Numbers, Reading};
use libtest::gauge::{ABOVE, BELOW, FREE_TOTAL, HELD_TOTAL, OUTSIDE};
use libtest::plain::Plain;

#[path = "gauge/rows.rs"]
mod rows;

/// Makes readings until a difference is found.
fn run(gauge: &mut impl Gauge, readings: u64) -> Result<Tally, String> {
    let mut comparison = Comparison::new(gauge);
    comparison.run(1, readings)?;
    Ok(comparison.tally)
}

#[test]
fn the_plain_gauge_agrees_with_itself() {
    let tally = run(&mut Plain, 200_000).unwrap_or_else(|problem| panic!("{problem}"));
    println!("{tally}");
    assert_eq!(tally.missing(), Vec::<String>::new());
}

#[test]
fn what_never_occurs_is_told() {
    let tally = run(&mut Plain, 0).unwrap_or_else(|problem| panic!("{problem}"));
    let missing = tally.missing();
    assert!(missing.contains(&"a reading: above, silent at the limit".to_string()));
    assert!(missing.contains(&"a reading that tells: comparisons that are not strict".to_string()));
}

/// A gauge with a fault: what a reading leaves by it.
struct Faulty<F>(F);

impl<F: FnMut(&Reading) -> Left> Gauge for Faulty<F> {
    fn read(
        &mut self,
        words: &mut [u64; 2],
        sounds: &mut u32,
        alarm: Alarm,
        numbers: &Numbers,
    ) -> u32 {
        let left = (self.0)(&Reading {
            words: *words,
            sounds: *sounds,
            alarm,
            numbers: numbers.clone(),
        });
        (*words, *sounds) = (left.words, left.sounds);
        left.status
    }
}

/// The reading as the plain gauge makes it.
fn plain(reading: &Reading) -> Left {
    reading.by(&mut Plain)
}

/// A fault must be found within so many readings.
fn must_be_found(title: &str, fault: impl FnMut(&Reading) -> Left) {
    let result = run(&mut Faulty(fault), 20_000);
    assert!(result.is_err(), "not found: {title}");
}

/// The same of what the plain gauge leaves, changed then.
fn must_be_found_after(title: &str, change: impl Fn(&Reading, &mut Left)) {
    must_be_found(title, |reading| {
        let mut left = plain(reading);
        change(reading, &mut left);
        left
    });
}

/// The same of a reading that is changed first, and leaves the words as they
/// were where it is refused.
fn must_be_found_before(title: &str, change: impl Fn(&mut Reading)) {
    must_be_found(title, |reading| {
        let mut changed = reading.clone();
        change(&mut changed);
        let mut left = plain(&changed);
        if left.status != status::SUCCESSFUL {
            left.words = reading.words;
        }
        left
    });
}

#[test]
fn a_gauge_by_readings_is_no_fault() {
    assert!(run(&mut Faulty(plain), 20_000).is_ok());
}

#[test]
fn each_slip_is_found() {
    for slip in SLIPS {
        match slip.differs {
            Differs::AtTimes => must_be_found(slip.title, slip.left),
            _ => assert!(
                run(&mut Faulty(slip.left), 20_000).is_ok(),
                "{}",
                slip.title
            ),
        }
    }
}

#[test]
fn faults_of_words_are_found() {
    must_be_found_after("the words change places", |_, left| left.words.swap(0, 1));
    must_be_found_after("a refusal leaves whether it sounds", |reading, left| {
        if left.status == status::INVALID_NUMBER {
            left.sounds = reading.sounds;
        }
    });
    must_be_found_after("a refusal writes a NaN anew", |_, left| {
        for word in &mut left.words {
            if f64::from_bits(*word).is_nan() {
                *word = f64::NAN.to_bits();
            }
        }
    });
    must_be_found_after("a refusal quiets a NaN", |_, left| {
        for word in &mut left.words {
            if f64::from_bits(*word).is_nan() {
                *word |= 1 << 51;
            }
        }
    });
    must_be_found_after("25 is silent", |_, left| {
        if left.status == status::INTERNAL_ERROR {
            left.sounds = 0;
        }
    });
    must_be_found_after("25 by a short answer is silent", |reading, left| {
        if left.status == status::INTERNAL_ERROR && reading.alarm.number <= OUTSIDE {
            left.sounds = 0;
        }
    });
    must_be_found_after("25 clears the words", |_, left| {
        if left.status == status::INTERNAL_ERROR {
            left.words = [0, 0];
        }
    });
}

const INFINITY: u64 = 0x7ff0_0000_0000_0000;
const NAN: u64 = 0x7ff8_0000_0000_0000;

/// The words that a reading takes for floats.
fn floats(reading: &mut Reading) -> [&mut u64; 4] {
    let [last, smoothed] = &mut reading.words;
    let Alarm { limit, high, .. } = &mut reading.alarm;
    [last, smoothed, limit, high]
}

#[test]
fn faults_of_floats_are_found() {
    must_be_found_before("negative numbers taken for a NaN", |reading| {
        for bits in floats(reading) {
            *bits = if *bits > INFINITY { NAN } else { *bits };
        }
    });
    must_be_found_before("a NaN told by its high half", |reading| {
        for bits in floats(reading) {
            if *bits >> 32 == INFINITY >> 32 {
                *bits = INFINITY;
            }
        }
    });
    must_be_found_before("an infinity taken for a NaN", |reading| {
        for bits in floats(reading) {
            *bits = if *bits == INFINITY { NAN } else { *bits };
        }
    });
    must_be_found_before("subnormals taken for 0", |reading| {
        for bits in floats(reading) {
            *bits = if *bits < 1 << 52 { 0 } else { *bits };
        }
    });
    must_be_found_after("the smoothed fill in 32 bits", |_, left| {
        if left.status == 0 {
            let smoothed = f64::from_bits(left.words[1]) as f32;
            left.words[1] = f64::from(smoothed).to_bits();
        }
    });
}

#[test]
fn faults_of_alarms_are_found() {
    must_be_found_before("an alarm by its low byte", |reading| {
        reading.alarm.number %= 256;
    });
    must_be_found_before("a number past the last alarm", |reading| {
        reading.alarm.number = reading.alarm.number.min(OUTSIDE);
    });
    for alarm in [ABOVE, BELOW] {
        must_be_found_after("a high limit of an alarm that has none", |reading, left| {
            let is_nan = f64::from_bits(reading.alarm.high).is_nan();
            if reading.alarm.number == alarm && is_nan && left.status == 0 {
                *left = refused(reading);
            }
        });
    }
    must_be_found_before("above and below change places", |reading| {
        let number = &mut reading.alarm.number;
        *number = if *number < OUTSIDE {
            1 - *number
        } else {
            *number
        };
    });
}

#[test]
fn faults_of_two_limits_are_found() {
    must_be_found_before("crossed limits change places", |reading| {
        let Alarm { limit, high, .. } = &mut reading.alarm;
        if f64::from_bits(*limit) > f64::from_bits(*high) {
            std::mem::swap(limit, high);
        }
    });
    must_be_found_after("equal limits refused", |reading, left| {
        let Alarm { limit, high, .. } = reading.alarm;
        if left.status == 0 && reading.alarm.number == OUTSIDE && limit == high {
            *left = refused(reading);
        }
    });
    must_be_found_after("silent below a low limit", |reading, left| {
        let low = f64::from_bits(reading.alarm.limit);
        if reading.alarm.number == OUTSIDE && f64::from_bits(left.words[1]) < low {
            left.sounds = 0;
        }
    });
}

/// What a refused reading leaves.
fn refused(reading: &Reading) -> Left {
    Left {
        status: status::INVALID_NUMBER,
        words: reading.words,
        sounds: 0,
    }
}

#[test]
fn faults_of_fills_are_found() {
    let one = 1.0_f64.to_bits();
    for place in [0, 1] {
        must_be_found_after("1 is no fill", |reading, left| {
            if left.status == 0 && reading.words[place] == one {
                *left = refused(reading);
            }
        });
        must_be_found_after("-0 is no fill", |reading, left| {
            if left.status == 0 && reading.words[place] == 1 << 63 {
                *left = refused(reading);
            }
        });
    }
    must_be_found_after("half of the way", |reading, left| {
        if left.status == 0 {
            let [last, _] = left.words.map(f64::from_bits);
            let old = f64::from_bits(reading.words[1]);
            left.words[1] = (old + (last - old) * 0.5).to_bits();
        }
    });
    must_be_found_after("all held refused", |reading, left| {
        if left.status == 0 && left.words[0] == one {
            *left = refused(reading);
        }
    });
    must_be_found_after("the first reading is not smoothed", |reading, left| {
        if left.status == 0 && reading.words == [0, 0] {
            left.words[1] = left.words[0];
        }
    });
}

/// The answer of a reading by one that is long enough.
fn answer(reading: &mut Reading) -> Option<&mut Vec<u32>> {
    match &mut reading.numbers {
        Numbers::Answer(words) if words.len() > HELD_TOTAL => Some(words),
        _ => None,
    }
}

#[test]
fn faults_of_numbers_are_found() {
    for (title, from, to) in [
        ("the largest free segment", FREE_TOTAL - 1, FREE_TOTAL),
        ("the largest held segment", HELD_TOTAL - 1, HELD_TOTAL),
        ("the free total twice", FREE_TOTAL, HELD_TOTAL),
    ] {
        must_be_found_before(title, |reading| {
            if let Some(words) = answer(reading) {
                words[to] = words[from];
            }
        });
    }
    must_be_found_before("the free total for the held one", |reading| {
        if let Some(words) = answer(reading) {
            words.swap(FREE_TOTAL, HELD_TOTAL);
        }
    });
    must_be_found_before("a long answer refused", |reading| {
        if let Some(words) = answer(reading).filter(|words| words.len() > HELD_TOTAL + 1) {
            words.clear();
        }
    });
    must_be_found_before("a short answer filled up", |reading| {
        if let Numbers::Answer(words) = &mut reading.numbers {
            words.resize(words.len().max(HELD_TOTAL + 1), 1);
        }
    });
    must_be_found_before("numbers with a sign", |reading| {
        if let Numbers::Bytes { held, .. } = &mut reading.numbers {
            *held = (*held as i32).max(0) as u32;
        }
    });
    must_be_found_before("more held than the total taken for all", |reading| {
        if let Numbers::Bytes { held, total } = &mut reading.numbers {
            *held = (*held).min(*total);
        }
    });
}

/// A difference names the seed, the reading and all of its arguments.
#[test]
fn a_difference_is_told() {
    let mut number = 0;
    let mut reading_found = String::new();
    let problem = run(
        &mut Faulty(|reading: &Reading| {
            number += 1;
            let mut left = plain(reading);
            if number == 1_234 {
                reading_found = reading.to_string();
                left.sounds ^= 1 << 31;
            }
            left
        }),
        2_000,
    )
    .expect_err("nothing found");
    assert!(problem.starts_with("Seed 1, reading 1234:\nsc_gauge_read"));
    assert!(problem.contains(&reading_found), "{problem}");
    assert!(problem.contains("  sounds is 0x8000000"), "{problem}");
}
