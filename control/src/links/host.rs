use super::ReturnedRequests;
use super::{Destination, ForwardedCommand, ForwardedRequest, Identity, PeerSession, Reason};
use std::io;

/// The program whose processes are linked. It knows the meaning of requests, and executes them.
///
/// Links call it from their own threads, several at a time.
pub trait Host: Send + Sync + Sized + 'static {
    /// Why a request isn't done.
    type Reason: Reason;
    /// The destinations of requests.
    type Destination: Destination;
    /// A request of a client of this process, which another process executes.
    type Request: ForwardedRequest<Reason = Self::Reason>;
    /// A command for the control, which another process executes.
    type Command: ForwardedCommand;
    /// The session that answers one process that has connected.
    type Session: PeerSession<Reason = Self::Reason>;

    /// Begins a session for a process that has connected and was welcomed.
    ///
    /// # Errors
    ///
    /// If the program can't answer it. The connection ends then.
    fn session(&self, peer: Identity) -> io::Result<Self::Session>;

    /// Goes on with requests that another process didn't do: the program looks again which process executes them. It
    /// must not wait.
    ///
    /// # Errors
    ///
    /// The requests themselves, if the program ends. Then they are refused.
    fn resume(&self, returned: ReturnedRequests<Self>) -> Result<(), ReturnedRequests<Self>>;
}
