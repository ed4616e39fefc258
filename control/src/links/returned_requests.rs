use super::{ForwardedRequest, Host, Reason};
use durkenzo_store::Revision;

/// Requests of one client that another process didn't do, in their order.
pub struct ReturnedRequests<H: Host> {
    /// The destination to which they were sent.
    pub destination: H::Destination,
    /// The requests.
    pub requests: Vec<H::Request>,
    /// The revision of the record by which the program looks again who executes them. The record may have to be read
    /// first.
    pub revision: Revision,
}

impl<H: Host> ReturnedRequests<H> {
    /// Tells that this process ends. If another process sent them here, that process looks again.
    pub(super) fn stop(self) {
        let requests = self.requests.into_iter();
        requests.for_each(|it| it.refuse(H::Reason::stopped()));
    }

    /// Refuses them, because this server's process can't be reached.
    pub(super) fn refuse(self, server: u16, why: &str) {
        let requests = self.requests.into_iter();
        requests.for_each(|it| it.refuse_unreached(server, why));
    }
}
