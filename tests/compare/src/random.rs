//! Random numbers from a seed (splitmix64): the same seed gives the same cases everywhere.

pub struct Random(u64);

impl Random {
    /// The numbers of one case; cases do not share numbers.
    pub fn new(seed: u64, kind: u64, case: u64) -> Random {
        let mut random = Random(seed ^ kind.wrapping_mul(0x9E37_79B9_7F4A_7C15));
        random.0 = random.next() ^ case.wrapping_mul(0xD1B5_4A32_D192_ED03);
        random
    }

    pub fn next(&mut self) -> u64 {
        self.0 = self.0.wrapping_add(0x9E37_79B9_7F4A_7C15);
        let mixed = (self.0 ^ (self.0 >> 30)).wrapping_mul(0xBF58_476D_1CE4_E5B9);
        let mixed = (mixed ^ (mixed >> 27)).wrapping_mul(0x94D0_49BB_1331_11EB);
        mixed ^ (mixed >> 31)
    }

    /// A number from 0 to below - 1.
    pub fn below(&mut self, below: usize) -> usize {
        (self.next() % below as u64) as usize
    }

    /// A number from low to high, both included.
    pub fn between(&mut self, low: i64, high: i64) -> i64 {
        low + (self.next() % (high - low + 1) as u64) as i64
    }

    pub fn chance(&mut self, percent: u64) -> bool {
        self.next() % 100 < percent
    }

    pub fn pick<T: Copy>(&mut self, choices: &[T]) -> T {
        choices[self.below(choices.len())]
    }
}
