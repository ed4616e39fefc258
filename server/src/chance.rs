//! Fixed pseudo-random numbers for tests, so that a failure can be reproduced.

/// A generator of numbers that are the same in each run.
pub(crate) struct Chance(u64);

impl Chance {
    /// Makes the generator with this seed, which must not be 0.
    pub(crate) fn new(seed: u64) -> Chance {
        Chance(seed)
    }

    /// Returns a number below the limit.
    pub(crate) fn below(&mut self, limit: usize) -> usize {
        self.0 ^= self.0 << 13;
        self.0 ^= self.0 >> 7;
        self.0 ^= self.0 << 17;
        (self.0 % limit as u64) as usize
    }

    /// Returns some bytes, fewer than the limit.
    pub(crate) fn bytes(&mut self, limit: usize) -> Vec<u8> {
        (0..self.below(limit))
            .map(|_| self.below(256) as u8)
            .collect()
    }

    /// Returns one of these.
    pub(crate) fn one<T: Copy>(&mut self, of: &[T]) -> T {
        of[self.below(of.len())]
    }
}
