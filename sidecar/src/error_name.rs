use hyper::StatusCode;
use serde::{Deserialize, Serialize};
use std::fmt;

/// The name of an error that a sidecar tells a client, in the header `Durkenzo-Error`.
#[derive(Clone, Copy, Debug, PartialEq, Eq, PartialOrd, Ord, Hash, Serialize, Deserialize)]
pub enum ErrorName {
    /// The request can't be read: 400.
    BadRequest,
    /// Only a client on the same machine may ask this: 403.
    Forbidden,
    /// There is no such path: 404.
    UnknownPath,
    /// The fleet has no such shard: 404.
    UnknownShard,
    /// The path isn't asked by this method: 405.
    BadMethod,
    /// The request's body didn't come in time: 408.
    Slow,
    /// The request's body is too long: 413.
    TooLong,
    /// A command was refused by the control: 409.
    Refused,
    /// The call wasn't made, and won't be: 503, and the client may try again.
    NotMade,
    /// As many calls are under way as may be, so the call wasn't made: 503, and the client may try again.
    Busy,
    /// The call may have been made, or may still be made: 502.
    Unsure,
    /// As `Unsure`, because no answer came in time: 504.
    UnsureLate,
}

impl ErrorName {
    /// All names.
    pub const ALL: [ErrorName; 12] = [
        ErrorName::BadRequest,
        ErrorName::Forbidden,
        ErrorName::UnknownPath,
        ErrorName::UnknownShard,
        ErrorName::BadMethod,
        ErrorName::Slow,
        ErrorName::TooLong,
        ErrorName::Refused,
        ErrorName::NotMade,
        ErrorName::Busy,
        ErrorName::Unsure,
        ErrorName::UnsureLate,
    ];

    /// Returns the name as the header has it.
    pub fn text(self) -> &'static str {
        match self {
            ErrorName::BadRequest => "BadRequest",
            ErrorName::Forbidden => "Forbidden",
            ErrorName::UnknownPath => "UnknownPath",
            ErrorName::UnknownShard => "UnknownShard",
            ErrorName::BadMethod => "BadMethod",
            ErrorName::Slow => "Slow",
            ErrorName::TooLong => "TooLong",
            ErrorName::Refused => "Refused",
            ErrorName::NotMade => "NotMade",
            ErrorName::Busy => "Busy",
            // A client does the same about both.
            ErrorName::Unsure | ErrorName::UnsureLate => "Unsure",
        }
    }

    /// Returns the status of the response.
    pub(crate) fn status(self) -> StatusCode {
        match self {
            ErrorName::BadRequest => StatusCode::BAD_REQUEST,
            ErrorName::Forbidden => StatusCode::FORBIDDEN,
            ErrorName::UnknownPath | ErrorName::UnknownShard => StatusCode::NOT_FOUND,
            ErrorName::BadMethod => StatusCode::METHOD_NOT_ALLOWED,
            ErrorName::Slow => StatusCode::REQUEST_TIMEOUT,
            ErrorName::TooLong => StatusCode::PAYLOAD_TOO_LARGE,
            ErrorName::Refused => StatusCode::CONFLICT,
            ErrorName::NotMade | ErrorName::Busy => StatusCode::SERVICE_UNAVAILABLE,
            ErrorName::Unsure => StatusCode::BAD_GATEWAY,
            ErrorName::UnsureLate => StatusCode::GATEWAY_TIMEOUT,
        }
    }

    /// Returns whether nothing was done, and the same request may succeed soon.
    pub(crate) fn is_transient(self) -> bool {
        self.status() == StatusCode::SERVICE_UNAVAILABLE
    }
}

impl fmt::Display for ErrorName {
    fn fmt(&self, f: &mut fmt::Formatter<'_>) -> fmt::Result {
        f.write_str(self.text())
    }
}
