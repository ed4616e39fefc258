/// A set of calls by their numbers, in which low numbers come first.
pub(crate) struct CallSet {
    bits: Vec<u64>,
    /// All words before this one are full.
    full: usize,
    /// No word from this one on has a bit.
    top: usize,
}

impl CallSet {
    /// Returns the empty set of this many calls.
    pub(crate) fn new(count: usize) -> CallSet {
        CallSet {
            bits: vec![0; count.div_ceil(64)],
            full: 0,
            top: 0,
        }
    }

    pub(crate) fn has(&self, call: usize) -> bool {
        self.bits[call / 64] >> (call % 64) & 1 == 1
    }

    pub(crate) fn add(&mut self, call: usize) {
        self.bits[call / 64] |= 1 << (call % 64);
        self.top = self.top.max(call / 64 + 1);
        while self.bits.get(self.full) == Some(&u64::MAX) {
            self.full += 1;
        }
    }

    pub(crate) fn remove(&mut self, call: usize) {
        self.bits[call / 64] &= !(1 << (call % 64));
        self.full = self.full.min(call / 64);
        while self.top > 0 && self.bits[self.top - 1] == 0 {
            self.top -= 1;
        }
    }

    /// Returns the set's words: as many as in every set of this many calls.
    pub(crate) fn bits(&self) -> &[u64] {
        &self.bits
    }

    /// Returns a short key that tells this set from others: how many words are full, and the words after them that have
    /// a bit.
    pub(crate) fn key(&self) -> (usize, Box<[u64]>) {
        (
            self.full,
            self.bits[self.full..self.top.max(self.full)].into(),
        )
    }
}
