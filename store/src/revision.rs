use std::fmt;

/// A moment of a store, as a number that rises with each transaction that writes something.
#[derive(Clone, Copy, Debug, Default, PartialEq, Eq, PartialOrd, Ord, Hash)]
pub struct Revision(pub u64);

impl Revision {
    /// The revision of a key that doesn't exist.
    pub const NEVER: Revision = Revision(0);

    /// Returns the next one. There is none after the greatest, which no store reaches.
    pub fn next(self) -> Revision {
        Revision(self.0.saturating_add(1))
    }
}

impl fmt::Display for Revision {
    fn fmt(&self, f: &mut fmt::Formatter<'_>) -> fmt::Result {
        self.0.fmt(f)
    }
}
