//! Random numbers. The same seed gives the same numbers.

/// A generator of random numbers (SplitMix64).
pub struct Chance {
    state: u64,
}

impl Chance {
    pub fn new(seed: u64) -> Chance {
        Chance { state: seed }
    }

    pub fn drawn(&mut self) -> u64 {
        self.state = self.state.wrapping_add(0x9e37_79b9_7f4a_7c15);
        let mut mixed = self.state;
        mixed = (mixed ^ (mixed >> 30)).wrapping_mul(0xbf58_476d_1ce4_e5b9);
        mixed = (mixed ^ (mixed >> 27)).wrapping_mul(0x94d0_49bb_1331_11eb);
        mixed ^ (mixed >> 31)
    }

    /// Returns a number below `count`, which must not be 0.
    pub fn below(&mut self, count: u64) -> u64 {
        self.drawn() % count
    }

    /// Draws an event that happens `times` times in `of`. Returns whether it happens.
    pub fn is_true(&mut self, times: u64, of: u64) -> bool {
        self.below(of) < times
    }
}
