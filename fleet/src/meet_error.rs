use durkenzo_control::links::{OTHER_SECRET, OTHER_SETTINGS};
use std::io;
use thiserror::Error;

/// The message of a process that speaks TLS to a process or client that doesn't.
pub(crate) const SPEAKS_TLS: &str = "it speaks TLS alone";

/// Why a connection to a server of a fleet can't be made. The server was asked for nothing.
#[derive(Debug, Error)]
#[non_exhaustive]
pub enum MeetError {
    /// The server isn't there, or doesn't answer in time.
    #[error(transparent)]
    Unreached(#[from] io::Error),
    /// The server has another secret, or only one side has a secret.
    #[error(
        "it doesn't take this secret: give both sides the same, by --secret-file or DURKENZO_SECRET"
    )]
    OtherSecret,
    /// The server belongs to a fleet with other settings.
    #[error("it is of a fleet with other settings: name one of this fleet")]
    OtherSettings,
    /// The server speaks TLS, and this side doesn't.
    #[error("{SPEAKS_TLS}: give --tls-ca, --tls-cert and --tls-key")]
    SpeaksTls,
    /// The server doesn't speak TLS, or a certificate isn't accepted. It has expired, is of another authority, or
    /// doesn't have the name that a process must have.
    #[error(
        "TLS fails: {0}: either side needs a --tls-cert of one --tls-ca that hasn't expired, a process one for the \
         name peer.durkenzo"
    )]
    Tls(io::Error),
    /// The server refuses for another reason. For example, all its places may be taken.
    #[error("it refuses: {0}")]
    Refused(String),
}

impl MeetError {
    /// Returns why a greeting failed, over TLS or without it.
    pub(crate) fn of_greeting(error: io::Error, is_by_tls: bool) -> MeetError {
        // If the other side has sent a refusal, the error is `Other` with its text. All other errors come from the
        // socket.
        if error.kind() != io::ErrorKind::Other {
            return match is_by_tls {
                true => MeetError::of_tls(error),
                false => MeetError::Unreached(error),
            };
        }
        match error.to_string() {
            why if why == OTHER_SECRET => MeetError::OtherSecret,
            why if why == OTHER_SETTINGS => MeetError::OtherSettings,
            why if why == SPEAKS_TLS => MeetError::SpeaksTls,
            why => MeetError::Refused(why),
        }
    }

    /// Returns why TLS failed. If the other side only takes too long, it counts as unreached.
    pub(crate) fn of_tls(error: io::Error) -> MeetError {
        match error.kind() {
            io::ErrorKind::TimedOut | io::ErrorKind::WouldBlock => MeetError::Unreached(error),
            _ => MeetError::Tls(error),
        }
    }

    /// Returns whether the server was reached, and refuses until somebody changes the configuration.
    pub(crate) fn is_refusal(&self) -> bool {
        match self {
            MeetError::Unreached(_) | MeetError::Refused(_) => false,
            MeetError::OtherSecret
            | MeetError::OtherSettings
            | MeetError::SpeaksTls
            | MeetError::Tls(_) => true,
        }
    }
}
