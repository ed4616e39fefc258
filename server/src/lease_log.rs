use crate::works::Peers;
use durkenzo_store::Revision;

/// Tells the log if this process of a cluster loses its lease, and once it has one again.
#[derive(Debug, Default)]
pub(crate) struct LeaseLog {
    /// The revision at which the process joined under its lease, as it was last seen; nothing if it had no lease.
    joined: Option<Revision>,
}

impl LeaseLog {
    /// Looks at the lease, and tells the log what has changed since the last look.
    pub(crate) fn look(&mut self, peers: &Peers) {
        let member = peers.member();
        let is_kept = member.lease_left().is_some();
        let joined = Some(member.joined()).filter(|it| is_kept && *it > Revision::NEVER);
        let server = member.server();
        match (self.joined, joined) {
            (None, None) => {}
            (None, Some(_)) => tracing::info!(server, "this process has a lease"),
            (Some(_), None) => {
                tracing::warn!(
                    server,
                    "this process has no lease any more, so what comes to its shards waits: is etcd reached?"
                );
            }
            (Some(before), Some(now)) if before != now => {
                tracing::warn!(
                    server,
                    "this process lost its lease, as after a suspension, and has another one"
                );
            }
            (Some(_), Some(_)) => {}
        }
        self.joined = joined;
    }
}
