//! Numbers that look random and are the same in every run.

/// The generator xorshift64.
pub struct Random(u64);

impl Random {
    /// Each seed gives a row of its own.
    pub fn new(seed: u32) -> Random {
        // The factor is odd, so no seed comes to 0, the one state that xorshift never leaves.
        Random((u64::from(seed) + 1).wrapping_mul(0x9E37_79B9_7F4A_7C15))
    }

    fn next(&mut self) -> u32 {
        self.0 ^= self.0 << 13;
        self.0 ^= self.0 >> 7;
        self.0 ^= self.0 << 17;
        // The upper half is the better mixed one.
        (self.0 >> 32) as u32
    }

    /// From 0 to `count` - 1.
    pub fn below(&mut self, count: u32) -> u32 {
        self.next() % count
    }

    /// From `least` to `most`, both included.
    pub fn between(&mut self, least: u32, most: u32) -> u32 {
        least + self.below(most - least + 1)
    }

    /// True once in so many times.
    pub fn one_in(&mut self, times: u32) -> bool {
        self.below(times) == 0
    }

    /// One of some values, of which there is at least one.
    pub fn pick<T: Copy>(&mut self, values: &[T]) -> T {
        values[self.below(values.len() as u32) as usize]
    }

    /// Puts values in another order.
    pub fn shuffle<T>(&mut self, values: &mut [T]) {
        for last in (1..values.len()).rev() {
            values.swap(last, self.below(last as u32 + 1) as usize);
        }
    }
}

#[cfg(test)]
mod tests {
    use super::*;

    #[test]
    fn a_seed_has_one_row() {
        let row = |seed| {
            let mut random = Random::new(seed);
            [(); 8].map(|()| random.below(1_000_000))
        };
        assert_eq!(row(1), row(1));
        assert_ne!(row(1), row(2));
        assert_ne!(row(0), [0; 8]);
    }

    #[test]
    fn both_ends_of_a_range_come() {
        let mut random = Random::new(1);
        let numbers: Vec<u32> = (0..100).map(|_| random.between(3, 5)).collect();
        assert_eq!((numbers.iter().min(), numbers.iter().max()), (Some(&3), Some(&5)));
    }

    #[test]
    fn shuffled_values_are_the_same_values() {
        let mut values: Vec<u32> = (0..50).collect();
        Random::new(1).shuffle(&mut values);
        assert!(values != (0..50).collect::<Vec<u32>>());
        values.sort();
        assert_eq!(values, (0..50).collect::<Vec<u32>>());
    }
}
