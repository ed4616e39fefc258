use durkenzo_store::Revision;
use std::time::Duration;

/// The lease of a process, as it was last kept.
#[derive(Clone, Copy, Debug, PartialEq, Eq)]
pub struct KeptLease {
    /// The revision at which the process joined under this lease.
    pub joined: Revision,
    /// The revision at which the process joined under the first lease of its tenure. Since then no other process of its
    /// server has executed, if this one [tells](crate::Member::have_tenure) that it executes.
    pub since: Revision,
    /// When the process asked for the grant or the keep that was last answered, by
    /// [`Member::time`](crate::Member::time).
    pub asked: Duration,
    /// How long the lease lasts from then on, by the store's clock.
    pub length: Duration,
}
