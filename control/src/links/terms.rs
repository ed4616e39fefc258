use super::{Admission, Identity, Secret};
use crate::tls::PeersTls;
use std::fmt;

/// How the processes of a cluster recognize each other.
#[derive(Clone)]
pub struct Terms {
    /// The identity of this process.
    pub identity: Identity,
    /// The secret that each of them knows, if one was configured.
    pub secret: Option<Secret>,
    /// Their TLS configuration, if they use TLS.
    pub tls: Option<PeersTls>,
    /// Who else may connect.
    pub admits: Admission,
}

impl fmt::Debug for Terms {
    /// Shows everything except the secret.
    fn fmt(&self, f: &mut fmt::Formatter<'_>) -> fmt::Result {
        f.debug_struct("Terms")
            .field("identity", &self.identity)
            .finish_non_exhaustive()
    }
}
