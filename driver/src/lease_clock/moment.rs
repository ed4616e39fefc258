use std::time::Duration;

/// A moment of a [`LeaseClock`](super::LeaseClock). Moments of different clocks can't be compared.
#[derive(Clone, Copy, Debug, PartialEq, Eq, PartialOrd, Ord)]
pub(crate) struct Moment(pub(super) Duration);

impl Moment {
    /// Returns how much time has passed since an earlier moment.
    pub(crate) fn since(self, earlier: Moment) -> Duration {
        self.0.saturating_sub(earlier.0)
    }

    /// Returns the moment that is so much later.
    pub(crate) fn after(self, time: Duration) -> Moment {
        Moment(self.0.saturating_add(time))
    }

    /// Returns how much time has passed since the clock's beginning.
    pub(crate) fn since_beginning(self) -> Duration {
        self.0
    }
}
