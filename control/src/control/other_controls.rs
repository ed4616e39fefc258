use super::{Again, Asked};
use durkenzo_driver::Member;

/// The beginnings of answers which say that no control has decided on a command, or may not have.
const UNDECIDED: [&[u8]; 4] = [
    b"-UNKNOWN",
    b"-PEERDOWN",
    b"-REFUSED NotLeader",
    b"-REFUSED St",
];

/// Returns whether a control has decided on a command, by the answer that another process passed on.
pub fn is_decided(answer: &[u8]) -> bool {
    !UNDECIDED.iter().any(|it| answer.starts_with(it))
}

/// The controls in the other processes of a cluster. Its calls must not wait.
pub trait OtherControls: Send + Sync {
    /// Returns this process's server, and the others that are there.
    fn member(&self) -> &Member;

    /// Returns the server whose process leads, if one does.
    fn leader(&self) -> Option<u16>;

    /// Gives the command to the control in this server's process. If it isn't done there, it waits again, if it may;
    /// otherwise it is refused.
    fn ask(&self, server: u16, asked: Asked, again: Option<Again>);

    /// Asks the control in that server's process that this process's server be up. Calls `tell` with whether that
    /// control has decided, or may have.
    fn ask_to_be_back(&self, leader: u16, tell: Box<dyn FnOnce(bool) + Send>);
}
