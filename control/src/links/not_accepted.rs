use thiserror::Error;

/// An earlier process of a cluster refuses this one.
#[derive(Debug, Error)]
#[error("the process of server {server} at {address} refuses this one: {why}")]
pub struct NotAccepted<E> {
    /// The server of that process.
    pub server: u16,
    /// The address of that process.
    pub address: String,
    /// The reason that it gives.
    pub why: E,
}
