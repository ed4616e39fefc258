use durkenzo_driver::Came;
use std::time::Instant;

/// The server that executes a shard, and the way in which requests get there.
pub trait Destination: Clone + Send + 'static {
    /// Returns the shard.
    fn shard(&self) -> u16;

    /// Returns the server.
    fn server(&self) -> u16;

    /// Returns how requests get there.
    fn came(&self) -> Came;

    /// Returns since when the requests wait.
    fn since(&self) -> Instant;
}
