use serde::{Deserialize, Serialize};

/// How a shard's state goes to the sidecar of the next owner.
#[derive(Clone, Copy, Debug, PartialEq, Eq, Serialize, Deserialize)]
pub(crate) enum HandedHead {
    /// The application gave the bytes that follow.
    Handed,
    /// The application doesn't have the shard any more, because it was begun anew.
    Lost,
}
