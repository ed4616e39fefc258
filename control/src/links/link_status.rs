use std::time::Duration;

/// Whether a link reaches the process of its server.
#[derive(Clone, Copy, Debug, Default, PartialEq, Eq)]
pub struct LinkStatus {
    /// Whether the link has a connection. If it has none, it makes one within some seconds while the server is there.
    pub is_reached: bool,
    /// How long the process took to answer the greeting with which the connection began, if there is one.
    pub round_trip: Option<Duration>,
}
