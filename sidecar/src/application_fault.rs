use crate::error_name::ErrorName;
use crate::refusal::Refusal;
use std::time::Duration;
use thiserror::Error;

/// The most characters of an application's answer that are told to an operator or a client.
const MOST_TOLD: usize = 200;

/// Why the application's answer to a request is missing.
#[derive(Debug, Error)]
pub(crate) enum ApplicationFault {
    /// No connection to the application could be made, so it has got nothing.
    #[error("the application isn't reached: {0}")]
    Unreached(String),
    /// The application hasn't answered within this time.
    #[error("the application hasn't answered within {} ms", .0.as_millis())]
    Late(Duration),
    /// The connection ended before the answer had come.
    #[error("the connection to the application ended: {0}")]
    Lost(String),
    /// The answer has more bytes than this.
    #[error("the application's answer is longer than {0} bytes")]
    TooLong(usize),
    /// The application answered with a status that says that it didn't do what a handler must do.
    #[error("the application answered {0}: {1}")]
    Refused(u16, String),
}

impl ApplicationFault {
    /// Returns the fault of an answer with this status, and with this text.
    pub(crate) fn refused(status: u16, text: &[u8]) -> ApplicationFault {
        let text = String::from_utf8_lossy(text);
        let told = text.chars().take(MOST_TOLD).collect::<String>();
        ApplicationFault::Refused(status, told.trim().to_owned())
    }
}

impl From<ApplicationFault> for Refusal {
    /// Returns what the client of a call is told. Only if the application has got nothing is it sure that nothing was
    /// done.
    fn from(fault: ApplicationFault) -> Refusal {
        let name = match fault {
            ApplicationFault::Unreached(_) => ErrorName::NotMade,
            ApplicationFault::Late(_) => ErrorName::UnsureLate,
            ApplicationFault::Lost(_)
            | ApplicationFault::TooLong(_)
            | ApplicationFault::Refused(..) => ErrorName::Unsure,
        };
        Refusal::new(name, fault.to_string())
    }
}
