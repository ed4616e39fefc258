/// A set of bytes, with a bit for each.
#[derive(Clone, Copy, Debug, Default)]
pub(super) struct ByteSet {
    low: u128,
    high: u128,
}

impl ByteSet {
    /// Makes the set of the bytes from `low` to `high`, which isn't less.
    pub(super) fn from_to(low: u8, high: u8) -> ByteSet {
        let mut bytes = ByteSet::default();
        for byte in low..=high {
            match byte < 128 {
                true => bytes.low |= 1 << byte,
                false => bytes.high |= 1 << (byte - 128),
            }
        }
        bytes
    }

    /// Returns the union of both sets.
    pub(super) fn with(self, other: ByteSet) -> ByteSet {
        ByteSet {
            low: self.low | other.low,
            high: self.high | other.high,
        }
    }

    /// Returns the set of all other bytes.
    pub(super) fn others(self) -> ByteSet {
        ByteSet {
            low: !self.low,
            high: !self.high,
        }
    }

    /// Returns whether the byte is in the set.
    pub(super) fn has(self, byte: u8) -> bool {
        let (bits, place) = match byte < 128 {
            true => (self.low, byte),
            false => (self.high, byte - 128),
        };
        bits >> place & 1 == 1
    }
}
