use std::time::Duration;

/// The options by which shards are driven.
#[derive(Clone, Copy, Debug, PartialEq, Eq)]
pub struct ShardOptions {
    /// How long work waits for a shard that no server executes, before it is refused.
    pub wait: Duration,
    /// The most batches that a log has before a base replaces them, so that a server can begin there. A base comes
    /// earlier if reading the batches takes longer than reading the base twice, and later if their number doesn't take
    /// as long as reading the base once.
    pub most_batches: u64,
    /// How reads are answered.
    pub reads: Reads,
}

/// How single reads are answered.
#[derive(Clone, Copy, Debug, Default, PartialEq, Eq)]
pub enum Reads {
    /// By a transaction that compares, so that each read happens after it came.
    #[default]
    Exact,
    /// From the server's memory, as long as its lease is kept and the last transaction that compared is less than a
    /// lease's length ago. Others may have written in that time. If servers have no leases, this is the same as
    /// `Exact`.
    Lease,
}

impl Default for ShardOptions {
    fn default() -> ShardOptions {
        ShardOptions {
            wait: Duration::from_secs(1),
            most_batches: 4_096,
            reads: Reads::Exact,
        }
    }
}
