/// A command for the control, which another process executes.
///
/// A link ends each command with one of the calls that consume it. No call may wait.
pub trait ForwardedCommand: Send + 'static {
    /// Returns the bytes to send. Only the host of the other process reads them.
    fn bytes(&self) -> Vec<u8>;

    /// Passes on the other process' answer.
    fn answer(self, answer: &[u8]);

    /// Tells that the other process didn't do the command, because its control doesn't answer.
    fn refuse(self);

    /// Tells that the other process can't be reached now, and why. Nothing was done.
    fn refuse_unreached(self, why: &str);

    /// Tells that the command was sent and its answer was lost, and why: it may have been done.
    fn lose(self, why: &str);
}
