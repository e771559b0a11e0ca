//! Pseudo-random numbers that are the same everywhere: a seed and a text's number give the same text each time.

/// SplitMix64.
pub struct Dice(u64);

impl Dice {
    /// The dice of one text of a run, which no other text's rolls move.
    pub fn new(seed: u64, number: u64) -> Self {
        let mut dice = Self(seed);
        let run = dice.roll();
        Self(run ^ number.wrapping_mul(0xd605_1f1d_4c3f_6a25))
    }

    fn roll(&mut self) -> u64 {
        self.0 = self.0.wrapping_add(0x9e37_79b9_7f4a_7c15);
        let mixed = (self.0 ^ (self.0 >> 30)).wrapping_mul(0xbf58_476d_1ce4_e5b9);
        let mixed = (mixed ^ (mixed >> 27)).wrapping_mul(0x94d0_49bb_1331_11eb);
        mixed ^ (mixed >> 31)
    }

    /// A number below another, which is not 0. The slight lean towards small ones does no harm here.
    pub fn below(&mut self, end: usize) -> usize {
        (self.roll() % end as u64) as usize
    }

    /// A number of a range, both ends among them.
    pub fn between(&mut self, least: usize, most: usize) -> usize {
        least + self.below(most - least + 1)
    }

    /// True once in so many times.
    pub fn once_in(&mut self, times: usize) -> bool {
        self.below(times) == 0
    }

    pub fn one<T: Copy>(&mut self, choices: &[T]) -> T {
        choices[self.below(choices.len())]
    }

    pub fn byte(&mut self) -> u8 {
        self.roll().to_le_bytes()[0]
    }
}
