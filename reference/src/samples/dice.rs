//! Random numbers, in whole numbers only, so alike on every machine.

/// The generator splitmix64.
pub struct Dice {
    state: u64,
}

impl Dice {
    pub fn new(seed: u64) -> Dice {
        Dice { state: seed }
    }

    fn next(&mut self) -> u64 {
        self.state = self.state.wrapping_add(0x9E37_79B9_7F4A_7C15);
        let mut z = self.state;
        z = (z ^ (z >> 30)).wrapping_mul(0xBF58_476D_1CE4_E5B9);
        z = (z ^ (z >> 27)).wrapping_mul(0x94D0_49BB_1331_11EB);
        z ^ (z >> 31)
    }

    /// A number from `least` to `most`, all alike.
    pub fn between(&mut self, least: u32, most: u32) -> u32 {
        let width = u64::from(most) - u64::from(least) + 1;
        let offset = self.next() % width;
        least + u32::try_from(offset).expect("the offset is below the width")
    }

    /// A long number from `least` to `most`, all about alike.
    pub fn long(&mut self, least: u64, most: u64) -> u64 {
        let offset = u128::from(self.next()) % (u128::from(most - least) + 1);
        least + u64::try_from(offset).expect("the offset is at most the width")
    }

    /// A number from `least` (above 0) to `most`, each doubling about as
    /// frequent as the next.
    pub fn spread(&mut self, least: u32, most: u32) -> u32 {
        let power = self.between(least.ilog2(), most.ilog2());
        let low = 1 << power;
        let high = low + (low - 1);
        self.between(low.max(least), high.min(most))
    }

    /// An index from `least` to `most`, all alike.
    pub fn index(&mut self, least: usize, most: usize) -> usize {
        let number = |index| u32::try_from(index).expect("an index is small");
        self.between(number(least), number(most)) as usize
    }

    /// A byte, all alike.
    pub fn byte(&mut self) -> u8 {
        self.between(0, 255) as u8
    }

    /// One of these, all alike.
    pub fn one_of<T: Copy>(&mut self, choices: &[T]) -> T {
        choices[self.index(0, choices.len() - 1)]
    }

    /// True once in `times`.
    pub fn once_in(&mut self, times: u32) -> bool {
        self.between(1, times) == 1
    }
}

#[cfg(test)]
mod tests {
    use super::*;

    #[test]
    fn splitmix64_is_the_published_one() {
        let mut dice = Dice::new(1_234_567);
        assert_eq!(dice.next(), 6_457_827_717_110_365_317);
        assert_eq!(dice.next(), 3_203_168_211_198_807_973);
    }

    #[test]
    fn spread_stays_in_range() {
        let mut dice = Dice::new(1);
        for (least, most) in [(1, 1), (1, 432_000), (20_000, 5_000_000), (5, u32::MAX)] {
            for _ in 0..10_000 {
                assert!((least..=most).contains(&dice.spread(least, most)));
            }
        }
    }
}
