//! A generator of numbers that are the same everywhere.

/// A linear congruential generator, with what it begins from.
pub struct Generator(pub u64);

impl Generator {
    /// The next number, which is below the limit.
    pub fn below(&mut self, limit: u32) -> u32 {
        self.0 =
            self.0.wrapping_mul(6_364_136_223_846_793_005).wrapping_add(1_442_695_040_888_963_407);
        ((self.0 >> 33) % u64::from(limit)) as u32
    }

    /// One of some choices, by the next number.
    pub fn pick<T: Copy>(&mut self, choices: &[T]) -> T {
        choices[self.below(choices.len() as u32) as usize]
    }
}
