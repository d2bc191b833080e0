//! A linear congruential generator, so that samples are the same everywhere.

/// The generator's number x; each draw makes it 1,664,525 x + 1,013,904,223 modulo 2^32.
pub struct Generator(u32);

impl Generator {
    pub fn new(seed: u32) -> Generator {
        Generator(seed)
    }

    /// Sixteen bits: the high half of the next x.
    pub fn half(&mut self) -> u16 {
        self.0 = self.0.wrapping_mul(1_664_525).wrapping_add(1_013_904_223);
        (self.0 >> 16) as u16
    }

    /// Thirty-two bits: two draws, the high half first.
    pub fn word(&mut self) -> u32 {
        let high = u32::from(self.half());
        high << 16 | u32::from(self.half())
    }

    /// One draw's remainder by a limit of at most 255.
    pub fn below(&mut self, limit: u8) -> u8 {
        (self.half() % u16::from(limit)) as u8
    }

    /// Eight bits: the low byte of one draw.
    pub fn byte(&mut self) -> u8 {
        self.half() as u8
    }

    /// One of at most 255 choices, by one draw.
    pub fn pick<T: Copy>(&mut self, choices: &[T]) -> T {
        choices[usize::from(self.below(choices.len() as u8))]
    }
}

#[cfg(test)]
mod tests {
    use super::*;

    #[test]
    fn the_first_draws_from_seed_1() {
        let mut generator = Generator::new(1);
        assert_eq!(generator.half(), (1_015_568_748u32 >> 16) as u16);
        let next = 1_015_568_748u64 * 1_664_525 + 1_013_904_223;
        assert_eq!(generator.half(), (next as u32 >> 16) as u16);
    }
}
