//! The rows of the computed table, read by the plain gauge. Floats are written
//! by their bits.

use libtest::gauge::{Alarm, Left, Numbers, Reading};
use libtest::gauge::{ABOVE, BELOW, FREE_TOTAL, HELD_TOTAL, OUTSIDE};
use libtest::plain::Plain;

const MINUS_ZERO: u64 = 0x8000_0000_0000_0000;
const QUARTER: u64 = 0x3fd0_0000_0000_0000;
const HALF: u64 = 0x3fe0_0000_0000_0000;
const ONE: u64 = 0x3ff0_0000_0000_0000;
const INFINITY: u64 = 0x7ff0_0000_0000_0000;
const MINUS_INFINITY: u64 = 0xfff0_0000_0000_0000;
const NO_NUMBER: u64 = 0x7ff8_0000_0000_0000;
/// The numbers next to a quarter, and to the ends.
const BELOW_QUARTER: u64 = 0x3fcf_ffff_ffff_ffff;
const ABOVE_QUARTER: u64 = 0x3fd0_0000_0000_0001;
const ABOVE_ONE: u64 = 0x3ff0_0000_0000_0001;
const BELOW_ZERO: u64 = 0x8000_0000_0000_0001;

/// The status and whether the alarm sounds.
type Outcome = (u32, u32);

const SILENT: Outcome = (0, 0);
const SOUNDING: Outcome = (0, 1);
const REFUSED: Outcome = (10, 0);

/// A reading: the alarm, held and total bytes; then what comes, and the bits of
/// both fills after it.
type Step = (Alarm, u32, u32, Outcome, [u64; 2]);

const fn above(limit: u64) -> Alarm {
    // Not read.
    let high = NO_NUMBER;
    Alarm {
        number: ABOVE,
        limit,
        high,
    }
}

const fn below(limit: u64) -> Alarm {
    Alarm {
        number: BELOW,
        ..above(limit)
    }
}

const fn outside(low: u64, high: u64) -> Alarm {
    Alarm {
        number: OUTSIDE,
        limit: low,
        high,
    }
}

const NEVER: Alarm = above(INFINITY);

/// All held.
fn full(alarm: Alarm, outcome: Outcome, smoothed: u64) -> Step {
    (alarm, 960, 960, outcome, [ONE, smoothed])
}

/// None held.
fn empty(alarm: Alarm, outcome: Outcome, smoothed: u64) -> Step {
    (alarm, 0, 960, outcome, [0, smoothed])
}

/// A made-up word before a reading.
const MADE_UP: u32 = 0xa5c3_96e1;

fn left_by(words: [u64; 2], alarm: Alarm, numbers: Numbers) -> Left {
    let reading = Reading {
        words,
        sounds: MADE_UP,
        alarm,
        numbers,
    };
    reading.by(&mut Plain)
}

/// Readings, one after the other, of a gauge that keeps these words.
fn kept(words: [u64; 2], steps: &[Step]) {
    let mut words = words;
    for (number, &(alarm, held, total, (status, sounds), after)) in (1..).zip(steps) {
        let left = left_by(words, alarm, Numbers::Bytes { held, total });
        let expected = Left {
            status,
            words: after,
            sounds,
        };
        assert_eq!(
            left, expected,
            "step {number}: {held} of {total}, {alarm:x?}"
        );
        words = left.words;
    }
}

/// The same of a fresh gauge.
fn start(steps: &[Step]) {
    kept([0, 0], steps);
}

/// A reading of half the bytes that is refused.
fn refuses(words: [u64; 2], alarm: Alarm) {
    kept(words, &[(alarm, 480, 960, REFUSED, words)]);
}

/// A reading of a fresh gauge by a free and a held total.
fn totals(free: u32, held: u32, (status, sounds): Outcome, words: [u64; 2]) {
    let mut answer = vec![MADE_UP; 7];
    answer[FREE_TOTAL] = free;
    answer[HELD_TOTAL] = held;
    let expected = Left {
        status,
        words,
        sounds,
    };
    let left = left_by([0, 0], NEVER, Numbers::Answer(answer));
    assert_eq!(left, expected, "{free} free, {held} held");
}

/// The second smoothed fill ends in 4, and in 5 where it were rounded once or
/// mixed of both fills.
#[test]
fn thirds() {
    let first = [0x3fd5_5555_5555_5555, 0x3fb5_5555_5555_5555];
    let second = [0x3fe5_5555_5555_5555, 0x3fcd_5555_5555_5554];
    start(&[(NEVER, 1, 3, SILENT, first), (NEVER, 2, 3, SILENT, second)]);
}

/// The new smoothed fill is compared, and not the one before.
#[test]
fn the_ends_are_exact() {
    let alarm = above(0x3fc9_9999_9999_999a);
    start(&[
        full(alarm, SOUNDING, QUARTER),
        empty(alarm, SILENT, 0x3fc8_0000_0000_0000),
    ]);
}

#[test]
fn at_the_limit_every_alarm_is_silent() {
    for (alarm, outcome) in [
        (above(QUARTER), SILENT),
        (below(QUARTER), SILENT),
        (outside(QUARTER, QUARTER), SILENT),
        (above(BELOW_QUARTER), SOUNDING),
        (below(ABOVE_QUARTER), SOUNDING),
        (outside(ABOVE_QUARTER, ONE), SOUNDING),
        (outside(0, BELOW_QUARTER), SOUNDING),
    ] {
        start(&[full(alarm, outcome, QUARTER)]);
    }
    start(&[empty(above(MINUS_ZERO), SILENT, 0)]);
}

#[test]
fn an_infinity_is_a_number() {
    for (alarm, outcome) in [
        (above(MINUS_INFINITY), SOUNDING),
        (below(INFINITY), SOUNDING),
        (outside(MINUS_INFINITY, INFINITY), SILENT),
        (outside(INFINITY, INFINITY), SOUNDING),
    ] {
        start(&[full(alarm, outcome, QUARTER)]);
    }
}

#[test]
fn wrong_limits_are_refused() {
    for alarm in [
        above(NO_NUMBER),
        below(NO_NUMBER),
        outside(NO_NUMBER, ONE),
        outside(0, NO_NUMBER),
        outside(NO_NUMBER, NO_NUMBER),
        outside(QUARTER, BELOW_QUARTER),
        outside(INFINITY, MINUS_INFINITY),
    ] {
        refuses([0, 0], alarm);
    }
}

#[test]
fn wrong_kept_fills_are_refused() {
    for words in [
        [NO_NUMBER, 0],
        [0, NO_NUMBER],
        [ABOVE_ONE, 0],
        [0, ABOVE_ONE],
        [BELOW_ZERO, ONE],
        [ONE, BELOW_ZERO],
        [INFINITY, 0],
    ] {
        refuses(words, NEVER);
    }
    kept([MINUS_ZERO, MINUS_ZERO], &[empty(NEVER, SILENT, 0)]);
    kept([ONE, ONE], &[full(NEVER, SILENT, ONE)]);
}

#[test]
fn wrong_numbers_are_refused() {
    let words = [HALF, QUARTER];
    kept(
        words,
        &[
            (NEVER, 0, 0, REFUSED, words),
            (NEVER, 1, 0, REFUSED, words),
            (NEVER, 961, 960, REFUSED, words),
        ],
    );
}

#[test]
fn the_largest_numbers() {
    for (held, words) in [
        (1, [0x3df0_0000_0010_0000, 0x3dd0_0000_0010_0000]),
        (u32::MAX - 1, [0x3fef_ffff_ffe0_0000, 0x3fcf_ffff_ffe0_0000]),
    ] {
        start(&[(NEVER, held, u32::MAX, SILENT, words)]);
    }
}

/// Two units below 1, where 125 readings of all held lead, and at the two
/// smallest fills above 0.
#[test]
fn a_step_that_rounds_to_nothing() {
    let nearly = 0x3fef_ffff_ffff_fffe;
    let mut words = [0, 0];
    for _ in 0..124 {
        let numbers = Numbers::Bytes {
            held: 960,
            total: 960,
        };
        words = left_by(words, NEVER, numbers).words;
    }
    assert_eq!(words, [ONE, nearly - 1]);
    kept(words, &[full(NEVER, SILENT, nearly)]);
    kept([ONE, nearly], &[full(NEVER, SILENT, nearly)]);
    kept([0, 3], &[empty(NEVER, SILENT, 2), empty(NEVER, SILENT, 2)]);
}

/// 448 of 960 bytes, and a sum that 32 bits don't hold.
#[test]
fn by_information() {
    let words = [0x3fdd_dddd_dddd_ddde, 0x3fbd_dddd_dddd_ddde];
    totals(512, 448, SILENT, words);
    let words = [0x3df0_0000_0000_0000, 0x3dd0_0000_0000_0000];
    totals(u32::MAX, 1, SILENT, words);
    totals(0, 0, REFUSED, [0, 0]);
}
