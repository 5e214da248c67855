//! Mixed bytes that are the same everywhere.

/// Marsaglia's xorshift on 32 bits.
pub struct Mixed(u32);

impl Mixed {
    /// The seed is not zero.
    pub fn new(seed: u32) -> Mixed {
        Mixed(seed)
    }

    pub fn byte(&mut self) -> u8 {
        self.0 ^= self.0 << 13;
        self.0 ^= self.0 >> 17;
        self.0 ^= self.0 << 5;
        (self.0 >> 24) as u8
    }

    pub fn bytes(&mut self, count: usize) -> Vec<u8> {
        (0..count).map(|_| self.byte()).collect()
    }

    /// A number below a count of at most 65,536.
    pub fn below(&mut self, count: usize) -> usize {
        let mixed = u16::from_be_bytes([self.byte(), self.byte()]);
        (mixed as usize * count) >> 16
    }

    pub fn one_of<T: Copy>(&mut self, some: &[T]) -> T {
        some[self.below(some.len())]
    }
}
