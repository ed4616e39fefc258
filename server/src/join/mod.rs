//! How a process becomes a server of a cluster of several.
mod joined;
mod options;

pub use joined::Joined;
pub use options::{JoinOptions, ReadsOption};
