//! Made-up numbers that are the same for the same seed (SplitMix64).

/// A source of made-up numbers.
#[derive(Clone)]
pub struct Random(u64);

/// The step of SplitMix64.
const STEP: u64 = 0x9e37_79b9_7f4a_7c15;

fn mix(mut bits: u64) -> u64 {
    bits = (bits ^ (bits >> 30)).wrapping_mul(0xbf58_476d_1ce4_e5b9);
    bits = (bits ^ (bits >> 27)).wrapping_mul(0x94d0_49bb_1331_11eb);
    bits ^ (bits >> 31)
}

impl Random {
    /// The source for the script or list of calls with this index. Each has its
    /// own, so that it can be run again without those before it.
    pub fn for_list(seed: u64, index: u64) -> Random {
        Random(mix(seed.wrapping_add(STEP)) ^ mix(index.wrapping_mul(STEP)))
    }

    /// A source of its own for a part.
    pub fn split(&mut self) -> Random {
        Random(self.bits())
    }

    pub fn bits(&mut self) -> u64 {
        self.0 = self.0.wrapping_add(STEP);
        mix(self.0)
    }

    /// Any word.
    pub fn word(&mut self) -> u32 {
        (self.bits() >> 32) as u32
    }

    /// A number below `limit`, which must not be 0.
    pub fn below(&mut self, limit: usize) -> usize {
        (self.bits() % limit as u64) as usize
    }

    /// A number from `low` to `high`, both included.
    pub fn between(&mut self, low: u32, high: u32) -> u32 {
        let count = u64::from(high) - u64::from(low) + 1;
        low + (self.bits() % count) as u32
    }

    /// True in so many of a hundred cases.
    pub fn chance(&mut self, percent: u32) -> bool {
        self.between(0, 99) < percent
    }

    /// One of some things, of which there must be at least one.
    pub fn pick<T: Copy>(&mut self, from: &[T]) -> T {
        from[self.below(from.len())]
    }

    /// One of some things by their weights, which must not all be 0.
    pub fn weighted<T: Copy>(&mut self, from: &[(u32, T)]) -> T {
        let total: u32 = from.iter().map(|(weight, _)| weight).sum();
        let mut left = self.between(0, total - 1);
        for &(weight, thing) in from {
            if left < weight {
                return thing;
            }
            left -= weight;
        }
        unreachable!("the weights add up to the total")
    }

    /// One of some things, if there is any.
    pub fn pick_any<T: Copy>(&mut self, from: &[T]) -> Option<T> {
        if from.is_empty() {
            None
        } else {
            Some(self.pick(from))
        }
    }
}

#[cfg(test)]
mod tests {
    use super::*;

    #[test]
    fn the_same_seed_gives_the_same_numbers() {
        let numbers = |seed, index| {
            let mut random = Random::for_list(seed, index);
            [random.bits(), random.bits(), random.bits()]
        };
        assert_eq!(numbers(1, 2), numbers(1, 2));
        assert_ne!(numbers(1, 2), numbers(1, 3));
        assert_ne!(numbers(1, 2), numbers(2, 2));
    }

    #[test]
    fn numbers_stay_in_range() {
        let mut random = Random::for_list(0, 0);
        for _ in 0..1_000 {
            assert!(random.below(3) < 3);
            assert!((5..=7).contains(&random.between(5, 7)));
        }
        random.between(0, u32::MAX);
        assert!(random.chance(100));
        assert!(!random.chance(0));
        assert_eq!(random.pick_any::<u32>(&[]), None);
    }
}
