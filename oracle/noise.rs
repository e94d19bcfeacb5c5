//! Fixed noise: a linear congruential generator, the same in every run.

/// An endless row of bytes that look random.
pub struct Noise(u32);

impl Noise {
    /// The noise of that number.
    pub fn new(seed: u32) -> Noise {
        Noise(seed)
    }

    /// The next number below `end`, which is at most 65,536.
    pub fn below(&mut self, end: usize) -> usize {
        self.turn() as usize % end
    }

    fn turn(&mut self) -> u16 {
        self.0 = self.0.wrapping_mul(1_664_525).wrapping_add(1_013_904_223);
        (self.0 >> 16) as u16
    }
}

impl Iterator for Noise {
    type Item = u8;

    fn next(&mut self) -> Option<u8> {
        Some((self.turn() >> 8) as u8)
    }
}
