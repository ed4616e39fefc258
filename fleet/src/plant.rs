use clap::ValueEnum;

/// A wrong rule that a test or a trial plants, to check that it is found.
#[derive(Clone, Copy, Debug, PartialEq, Eq, ValueEnum)]
pub(crate) enum Plant {
    /// The next owner begins anew and doesn't wait for the body.
    NextBeginsAnew,
    /// The owner still executes after it has handed over.
    OwnerExecutesOn,
    /// A process executes by its records without a lease.
    NoLease,
    /// The owner acks before the next owner has the body.
    EarlyAck,
}
