use super::ReplySender;
use durkenzo_driver::Came;
use std::time::Instant;

/// Requests of one client that another process sent to this one, in their order.
#[derive(Debug)]
pub struct ReceivedRequests<'a, R> {
    /// The shard whose server this process runs, as the sender believes.
    pub shard: u16,
    /// How they came.
    pub came: Came,
    /// Since when they wait.
    pub since: Instant,
    /// The bytes of each, and the sender of its answer.
    pub requests: Vec<(&'a [u8], ReplySender<R>)>,
}
