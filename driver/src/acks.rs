/// When a process acks the records by which its server no longer executes.
#[derive(Clone, Copy, Debug, PartialEq, Eq)]
pub enum Acks {
    /// When it reads the next record. This suits requests that go through a log, because each batch compares the
    /// record. The next owner acks once it has read the shard.
    AsRead,
    /// When its service calls [`Member::ack`](crate::Member::ack), once nothing executes by the records any more.
    ByService,
}
