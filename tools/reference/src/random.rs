//! Marsaglia's xorshift generator.

pub struct Random(u64);

impl Random {
    /// The vectors' generator: always from the same seed.
    pub fn new() -> Self {
        Random(20140101)
    }

    /// A generator of its own for each seed and number (Vigna's splitmix64).
    pub fn seeded(seed: u64, number: u64) -> Self {
        let mut state = seed;
        for step in [0, number] {
            state = state.wrapping_add(step).wrapping_add(0x9e37_79b9_7f4a_7c15);
            state = (state ^ (state >> 30)).wrapping_mul(0xbf58_476d_1ce4_e5b9);
            state = (state ^ (state >> 27)).wrapping_mul(0x94d0_49bb_1331_11eb);
            state ^= state >> 31;
        }
        Random(state.max(1)) // xorshift never leaves 0
    }

    fn next(&mut self) -> u64 {
        self.0 ^= self.0 << 13;
        self.0 ^= self.0 >> 7;
        self.0 ^= self.0 << 17;
        self.0
    }

    pub fn below(&mut self, bound: u64) -> u64 {
        self.next() % bound
    }

    /// Both ends are among the answers.
    pub fn between(&mut self, least: u64, most: u64) -> u64 {
        least + self.below(most - least + 1)
    }

    pub fn one_in(&mut self, count: u64) -> bool {
        self.below(count) == 0
    }

    pub fn pick<T: Clone>(&mut self, choices: &[T]) -> T {
        choices[self.below(choices.len() as u64) as usize].clone()
    }

    /// Up to `most`, small numbers as often as great ones.
    pub fn of_any_size(&mut self, most: u64) -> u64 {
        let bits = self.below(u64::from(64 - most.leading_zeros()) + 1);
        self.below(1 << bits.min(63)).min(most)
    }

    /// From one to `most` weights, each below the bound.
    pub fn weights(&mut self, most: u64, bound: u64) -> Vec<u64> {
        let size = 1 + self.below(most);
        (0..size).map(|_| self.below(bound)).collect()
    }
}
