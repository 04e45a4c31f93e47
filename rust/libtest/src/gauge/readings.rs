//! Made-up readings, at random and at the edges.

use super::{fill, smooth, Alarm, Numbers, Reading};
use super::{ABOVE, BELOW, FREE_TOTAL, HELD_TOTAL, OUTSIDE};
use crate::plain::Plain;
use author::Random;
use directives::words::{ANSWER_WORDS, NOTICES_AT};

// Some bits.
const SIGN: u64 = 1 << 63;
const QUIET: u64 = 1 << 51;
const SMALLEST_NORMAL: u64 = 1 << 52;
const ONE: u64 = 0x3ff0_0000_0000_0000;
const INFINITY: u64 = 0x7ff0_0000_0000_0000;

/// The most bytes of a region.
const REGION_BYTES: u32 = 65_536;

/// The readings of a seed. Most are of one gauge, which is read for a while;
/// then a next one is started.
pub struct Readings {
    random: Random,
    words: [u64; 2],
    /// Readings until a next gauge is started.
    left: u32,
    page: u32,
    pages: u32,
    /// In how many of a hundred readings none is held, and all.
    ends: [u32; 2],
}

impl Readings {
    pub fn new(seed: u64) -> Readings {
        Readings {
            // No list of calls has this number.
            random: Random::for_list(seed, u64::MAX),
            words: [0, 0],
            left: 0,
            page: 0,
            pages: 0,
            ends: [0, 0],
        }
    }

    fn start(&mut self) {
        let random = &mut self.random;
        self.words = if random.chance(80) {
            [0, 0]
        } else {
            [unit(random), unit(random)]
        };
        self.left = random.between(1, 300);
        self.page = 8 * random.between(1, 512);
        self.pages = random.between(1, REGION_BYTES / self.page);
        self.ends = random.pick(&[[5, 5], [5, 5], [85, 3], [3, 85]]);
    }

    /// Held and total bytes: mostly of the region.
    fn bytes(&mut self) -> (u32, u32) {
        let region = self.page * self.pages;
        let [none, all] = self.ends;
        let random = &mut self.random;
        if random.chance(none) {
            return (0, region);
        }
        if random.chance(all) {
            return (region, region);
        }
        match random.below(20) {
            0 => (random.pick(&[0, 0, 0, 1, u32::MAX]), 0),
            1 => (region + random.between(1, 8), region),
            2 => (random.word(), random.word()),
            3 => (near_most(random), near_most(random)),
            4 => (random.between(0, 8), near_most(random)),
            5 | 6 => (random.between(0, 8), random.between(0, 8)),
            7..=9 => {
                let total = random.word();
                (random.between(0, total), total)
            }
            _ => (self.page * random.between(0, self.pages), region),
        }
    }

    /// Free and held totals.
    fn totals(&mut self) -> (u32, u32) {
        let (held, total) = self.bytes();
        let random = &mut self.random;
        match random.below(16) {
            0 => (random.word(), random.word()),
            1 => (near_most(random), near_most(random)),
            2 => (near_most(random), random.between(0, 8)),
            3 => (random.between(0, 8), near_most(random)),
            // A sum of 2^32 where some are held.
            4 => (held.wrapping_neg(), held),
            _ => (total.saturating_sub(held), held),
        }
    }

    /// An answer with these totals, where it has words for them.
    fn answer(&mut self) -> Vec<u32> {
        let (free, held) = self.totals();
        let random = &mut self.random;
        let length = match random.below(10) {
            0 => random.below(NOTICES_AT + 2),
            1 | 2 => NOTICES_AT + 1,
            3..=5 => ANSWER_WORDS,
            _ => NOTICES_AT,
        };
        let mut words: Vec<u32> = (0..length).map(|_| random.word()).collect();
        for (at, total) in [(FREE_TOTAL, free), (HELD_TOTAL, held)] {
            if let Some(word) = words.get_mut(at) {
                *word = total;
            }
        }
        words
    }
}

impl Iterator for Readings {
    type Item = Reading;

    fn next(&mut self) -> Option<Reading> {
        if self.left == 0 {
            self.start();
        }
        self.left -= 1;
        let numbers = if self.random.below(3) < 2 {
            let (held, total) = self.bytes();
            Numbers::Bytes { held, total }
        } else {
            Numbers::Answer(self.answer())
        };
        let is_other = self.random.chance(30);
        let words = if is_other {
            other(&mut self.random, self.words)
        } else {
            self.words
        };
        let reading = Reading {
            words,
            sounds: self.random.word(),
            alarm: alarm(&mut self.random, words, &numbers),
            numbers,
        };
        if !is_other {
            self.words = reading.by(&mut Plain).words;
        }
        Some(reading)
    }
}

/// A number next to the largest.
fn near_most(random: &mut Random) -> u32 {
    u32::MAX - random.between(0, 8)
}

/// The words of another gauge: one fill is made up, or both are.
fn other(random: &mut Random, words: [u64; 2]) -> [u64; 2] {
    let mut made = || {
        if random.chance(40) {
            unit(random)
        } else {
            float(random)
        }
    };
    let (last, smoothed) = (made(), made());
    match random.below(3) {
        0 => [last, words[1]],
        1 => [words[0], smoothed],
        _ => [last, smoothed],
    }
}

/// The bits of a number from 0 to 1.
fn unit(random: &mut Random) -> u64 {
    match random.below(8) {
        // Most of these are tiny.
        0 => random.bits() % (ONE + 1),
        1 => subnormal(random),
        2 | 3 => {
            let total = random.between(1, 1_000);
            fill(random.between(0, total), u64::from(total)).to_bits()
        }
        _ => ((random.bits() >> 11) as f64 / (1_u64 << 53) as f64).to_bits(),
    }
}

/// A positive one, or 0.
fn subnormal(random: &mut Random) -> u64 {
    match random.below(3) {
        0 => random.bits() % 9,
        1 => SMALLEST_NORMAL - 1 - random.bits() % 3,
        _ => random.bits() % SMALLEST_NORMAL,
    }
}

/// The digits of a NaN after the one that makes it quiet.
fn payload(random: &mut Random) -> u64 {
    match random.below(4) {
        0 => random.bits() % 3,
        1 => QUIET - 1 - random.bits() % 3,
        _ => random.bits() % QUIET,
    }
}

/// The bits of a float of any kind, of either sign.
fn float(random: &mut Random) -> u64 {
    let bits = match random.below(12) {
        0 => INFINITY + QUIET + payload(random),
        1 => INFINITY + payload(random).max(1),
        2 => 0,
        3 => subnormal(random),
        4 => SMALLEST_NORMAL + random.bits() % 3,
        5 => INFINITY,
        6 => INFINITY - 1,
        7 => ONE - 1,
        8 => ONE,
        9 => ONE + 1,
        10 => random.bits() % SIGN,
        _ => unit(random),
    };
    bits | random.pick(&[0, SIGN])
}

fn alarm(random: &mut Random, words: [u64; 2], numbers: &Numbers) -> Alarm {
    let number = match random.below(40) {
        0 => random.pick(&[3, 4, 255, 256, 257, 1 << 31, u32::MAX - 1, u32::MAX]),
        1 => random.between(3, u32::MAX),
        2..=13 => ABOVE,
        14..=25 => BELOW,
        _ => OUTSIDE,
    };
    let old = f64::from_bits(words[1]);
    let new = numbers
        .held_and_total()
        .map_or(old, |(held, total)| smooth(old, fill(held, total)));
    let (mut limit, mut high) = (limit(random, old, new), limit(random, old, new));
    let is_crossed = f64::from_bits(limit) > f64::from_bits(high);
    match random.below(10) {
        0 => high = limit,
        // Low is above high where they differ.
        1 if !is_crossed => (limit, high) = (high, limit),
        2..=8 if is_crossed => (limit, high) = (high, limit),
        _ => {}
    }
    // Only the last alarm has a high limit.
    if number != OUTSIDE && random.chance(50) {
        high = float(random);
    }
    Alarm {
        number,
        limit,
        high,
    }
}

/// The bits of a limit: often at the smoothed fill before or after the
/// reading, or next to it.
fn limit(random: &mut Random, old: f64, new: f64) -> u64 {
    match random.below(16) {
        0..=2 => float(random),
        3..=6 => unit(random),
        7 => random.pick(&[INFINITY, INFINITY | SIGN]),
        8..=10 => new.to_bits(),
        11 | 12 => new.next_up().to_bits(),
        13 | 14 => new.next_down().to_bits(),
        _ => old.to_bits(),
    }
}
