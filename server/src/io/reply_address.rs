use super::caller::Caller;
use super::inlet::{Delivery, Inlet};
use crate::stats::ErrorCounts;
use std::fmt;
use std::sync::Arc;

/// How many bytes of an answer are logged.
const MOST_LOGGED: usize = 200;

/// The address of an answer, which is sent once.
pub struct ReplyAddress {
    to: To,
    /// The words that were asked, if the log tells their outcome.
    asked: Option<Box<str>>,
}

enum To {
    /// To a connection of a thread.
    Connection {
        inlet: Arc<Inlet>,
        place: usize,
        id: u64,
        caller: Caller,
    },
    /// To another process.
    Process(Box<dyn FnOnce(Vec<u8>) + Send>),
    /// To another process, which asks elsewhere if nothing is done.
    Asking(Box<dyn FnOnce(Option<Vec<u8>>) + Send>),
}

impl From<To> for ReplyAddress {
    fn from(to: To) -> ReplyAddress {
        let asked = None;
        ReplyAddress { to, asked }
    }
}

impl ReplyAddress {
    /// Makes the address of the connection with this number, at this place of the thread, of this client.
    pub(super) fn connection(
        inlet: Arc<Inlet>,
        (place, id): (usize, u64),
        caller: Caller,
    ) -> ReplyAddress {
        To::Connection {
            inlet,
            place,
            id,
            caller,
        }
        .into()
    }

    /// Returns who asked.
    pub fn caller(&self) -> Caller {
        match &self.to {
            To::Connection { caller, .. } => caller.clone(),
            To::Process(_) | To::Asking(_) => Caller::default(),
        }
    }

    /// Makes the address of another process, which gets the answer through this closure.
    pub fn process(tell: impl FnOnce(Vec<u8>) + Send + 'static) -> ReplyAddress {
        To::Process(Box::new(tell)).into()
    }

    /// Makes the address of another process, which gets the answer through this closure, or nothing if nothing was
    /// done: then it asks elsewhere.
    pub fn asking_process(tell: impl FnOnce(Option<Vec<u8>>) + Send + 'static) -> ReplyAddress {
        To::Asking(Box::new(tell)).into()
    }

    /// Returns whether another process asked, which asks elsewhere if nothing is done.
    pub fn asks_elsewhere(&self) -> bool {
        matches!(self.to, To::Asking(_))
    }

    /// Returns whether the client is still there. If it isn't, and the outcome is logged, logs that nothing is done.
    pub fn is_awaited(&self) -> bool {
        let is_awaited = self.caller().is_there();
        if let (Some(asked), false) = (&self.asked, is_awaited) {
            tracing::info!(%asked, "nothing is done, as the client has left");
        }
        is_awaited
    }

    /// Returns the same address, which also logs the answer to these words.
    pub fn logged(self, asked: String) -> ReplyAddress {
        ReplyAddress {
            asked: Some(asked.into()),
            ..self
        }
    }

    /// Tells the other process that nothing was done, so that it asks elsewhere.
    pub fn give_back(self) {
        if let To::Asking(tell) = self.to {
            tell(None);
        }
    }

    /// Counts the errors of an answer.
    pub fn note_errors(&self, errors: ErrorCounts) {
        if let To::Connection { inlet, .. } = &self.to {
            inlet.stats().note_errors(errors);
        }
    }

    /// Sends the answer.
    pub fn send(self, bytes: Vec<u8>) {
        self.send_of(bytes, 0);
    }

    /// Sends the answer to so many commands that weren't counted yet.
    pub fn send_of(self, bytes: Vec<u8>, commands: u64) {
        if let Some(asked) = &self.asked {
            let line = bytes.split(|it| *it == b'\r').next().unwrap_or_default();
            let told = line[..line.len().min(MOST_LOGGED)].escape_ascii();
            tracing::info!(%asked, %told, "the control has answered");
        }
        match self.to {
            To::Connection {
                inlet, place, id, ..
            } => inlet.change(|it| {
                it.answers.push(Delivery {
                    place,
                    id,
                    bytes,
                    commands,
                });
            }),
            To::Process(tell) => tell(bytes),
            To::Asking(tell) => tell(Some(bytes)),
        }
    }
}

impl fmt::Debug for ReplyAddress {
    fn fmt(&self, f: &mut fmt::Formatter<'_>) -> fmt::Result {
        match &self.to {
            To::Connection { place, id, .. } => write!(f, "ReplyTo({place}, {id})"),
            To::Process(_) | To::Asking(_) => f.write_str("ReplyTo(process)"),
        }
    }
}
