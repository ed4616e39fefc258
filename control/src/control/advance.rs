use super::answer::ControlAnswer;
use std::time::Duration;

/// How work goes on.
#[derive(Debug)]
pub enum Advance {
    /// After this time.
    After(Duration),
    /// After the pause between the steps of a migration.
    Again,
    /// After a while.
    Later,
    /// After a while. The client that asked is answered now.
    Told(ControlAnswer),
    /// The work is over.
    Done(ControlAnswer),
}

impl Advance {
    /// At once, after others have had their turn.
    pub const fn soon() -> Advance {
        Advance::After(Duration::ZERO)
    }
}
