use crate::application_url::ApplicationUrl;
use durkenzo_fleet::JoinError;
use std::io;
use std::net::SocketAddr;
use std::time::Duration;
use thiserror::Error;

/// Why a sidecar can't begin, or can't serve on.
#[derive(Debug, Error)]
pub enum SidecarError {
    /// It can't join the fleet.
    #[error(transparent)]
    Join(#[from] JoinError),
    /// The application isn't there.
    #[error(
        "no application takes connections at {0} within {} s: begin it, or set --application",
        .1.as_secs()
    )]
    NoApplication(ApplicationUrl, Duration),
    /// Anybody on the network could call.
    #[error(
        "--clients {0} lets other machines call without a proof, because HTTP has none here: listen at 127.0.0.1, or \
         give --open in a private network"
    )]
    Open(SocketAddr),
    /// A number of `--calls` that lets nobody call.
    #[error("--calls 0 lets nobody call: it is at least 1")]
    NoCalls,
    /// The system gives no thread or no socket.
    #[error("the system refuses it: {0}")]
    System(#[from] io::Error),
}
