use super::{Reason, ReceivedRequests, ReplySender, WireFault};

/// The session that answers one process that has connected, on the thread that reads its frames.
pub trait PeerSession: Send {
    /// Why a request isn't done.
    type Reason: Reason;

    /// Executes requests of one client, in their order, and answers each of them once, with its sender: now or later,
    /// and on any thread.
    fn execute(&mut self, received: ReceivedRequests<'_, Self::Reason>);

    /// Makes the control of this process execute a command, and answers it once, with its sender.
    ///
    /// # Errors
    ///
    /// If the bytes aren't a command. The connection ends then.
    fn ask_control(
        &mut self,
        command: &[u8],
        reply: ReplySender<Self::Reason>,
    ) -> Result<(), WireFault>;
}
