//! Numbers that look random, the same in each run.

/// A generator (xorshift).
pub struct Numbers(u64);

impl Numbers {
    /// The numbers that all programs here begin with.
    pub fn begin() -> Numbers {
        Numbers(0x9E37_79B9_7F4A_7C15)
    }

    /// The next number below `limit`.
    pub fn below(&mut self, limit: usize) -> usize {
        self.0 ^= self.0 << 13;
        self.0 ^= self.0 >> 7;
        self.0 ^= self.0 << 17;
        ((self.0 >> 33) % limit as u64) as usize
    }
}
