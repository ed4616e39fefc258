use super::Reason;

/// A request as it is sent.
#[derive(Clone, Debug, PartialEq, Eq)]
pub struct ForwardedMessage {
    /// Its bytes, which only the host of the other process reads.
    pub bytes: Vec<u8>,
    /// The first version of the table of commands that knows it.
    pub table: u16,
}

/// A request of a client of this process, which another process executes.
///
/// A link ends each request with one of the calls that consume it. No call may wait.
pub trait ForwardedRequest: Send + 'static {
    /// Why it isn't done.
    type Reason: Reason;

    /// Returns the request as it is sent.
    fn message(&self) -> ForwardedMessage;

    /// Returns whether somebody still waits for the answer. A request for which nobody waits isn't sent.
    fn is_awaited(&self) -> bool;

    /// Answers the client with these bytes of the other process.
    fn answer(self, answer: &[u8]);

    /// Tells the client that the request isn't done, or that nobody knows.
    fn refuse(self, reason: Self::Reason);

    /// Tells the client that this server's process can't be reached now, and why. The request wasn't done.
    fn refuse_unreached(self, server: u16, why: &str);

    /// Tells the client that this server's process has a version that doesn't know the request.
    fn refuse_unknown(self, server: u16);

    /// Returns the request if it may be sent again after its answer was lost. Otherwise tells the client that nobody
    /// knows whether it was done, and why.
    fn after_loss(self, why: &str) -> Option<Self>
    where
        Self: Sized;
}
