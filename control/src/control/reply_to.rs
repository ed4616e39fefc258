use super::answer::ControlAnswer;
use super::Refusal;
use std::fmt::Debug;

/// The address of the answer to a command, which is sent once.
pub trait ReplyTo: Debug + Send {
    /// Sends the answer. It must not wait.
    fn send(self: Box<Self>, answer: Result<ControlAnswer, Refusal>);

    /// Returns whether somebody still waits for the answer. If nobody does, nothing is done.
    fn is_awaited(&self) -> bool {
        true
    }

    /// Returns whether another process asked, which asks elsewhere if nothing is done here.
    fn asks_elsewhere(&self) -> bool {
        false
    }

    /// Tells the other process that nothing was done here. It is called only if that process asks elsewhere.
    fn give_back(self: Box<Self>) {}

    /// Sends an answer as the host of another process has written it. It must not wait.
    fn pass_on(self: Box<Self>, answer: Vec<u8>);
}
