use serde::{Deserialize, Serialize};

/// What a sidecar tells the one that executes a call, beside the bytes of the client's request.
#[derive(Clone, Debug, Default, Serialize, Deserialize)]
pub(crate) struct CallHead {
    /// The key, as the client wrote it in the path. There is none if the client named the shard.
    #[serde(default, skip_serializing_if = "Option::is_none")]
    pub(crate) key: Option<String>,
    /// The kind of the request's bytes, if the client told it.
    #[serde(default, skip_serializing_if = "Option::is_none")]
    pub(crate) content_type: Option<String>,
    /// How long the application may take, in milliseconds.
    pub(crate) within: u64,
}
