use crate::refusal::Refusal;
use serde::{Deserialize, Serialize};

/// What became of a call at the sidecar that executes it.
#[derive(Clone, Debug, PartialEq, Eq, Serialize, Deserialize)]
pub(crate) enum Outcome {
    /// The application answered with this status. Its bytes follow.
    Answered {
        status: u16,
        content_type: Option<String>,
    },
    /// The application's answer is missing.
    Failed(Refusal),
}
