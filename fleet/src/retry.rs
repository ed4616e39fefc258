use std::time::Duration;

/// How long a call may take, and whether it is sent again if nothing was done.
#[derive(Clone, Copy, Debug, PartialEq, Eq)]
pub enum Retry {
    /// The call is sent once, and may take this long.
    Once(Duration),
    /// The call is sent again as long as nothing was done, for this long in all.
    Until(Duration),
}

impl Retry {
    /// Returns how long the call may take.
    pub fn budget(self) -> Duration {
        match self {
            Retry::Once(budget) | Retry::Until(budget) => budget,
        }
    }
}
