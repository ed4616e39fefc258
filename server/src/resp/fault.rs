use super::{MAX_LINE, MAX_READ, MAX_READ_ARGUMENTS};
use std::error::Error;
use std::fmt;

/// Why bytes aren't a command. The connection ends then, because nobody knows where the next command begins.
#[derive(Clone, Copy, Debug, PartialEq, Eq)]
pub enum ProtocolFault {
    /// The number of arguments isn't a number.
    ArrayLength,
    /// There are too many arguments.
    ManyArguments,
    /// An argument has no length before it, but this byte.
    NoLength(u8),
    /// The length of an argument isn't a number.
    ArgumentLength,
    /// An argument has too many bytes.
    LongArgument,
    /// The arguments have too many bytes.
    TooLarge,
    /// An argument isn't followed by a line feed.
    NoLineEnd,
    /// A command that came as a line is too long.
    LongLine,
    /// A quoted word of such a line isn't closed, or is directly followed by something.
    Quotes,
}

/// Written in Redis' words if Redis has the case. If a bound was exceeded, it follows.
impl fmt::Display for ProtocolFault {
    fn fmt(&self, f: &mut fmt::Formatter<'_>) -> fmt::Result {
        f.write_str("Protocol error: ")?;
        match self {
            ProtocolFault::ArrayLength => f.write_str("invalid multibulk length"),
            ProtocolFault::ManyArguments => write!(
                f,
                "invalid multibulk length: at most {MAX_READ_ARGUMENTS} arguments of a command are read"
            ),
            ProtocolFault::NoLength(byte) => {
                write!(f, "expected '$', got '{}'", byte.escape_ascii())
            }
            ProtocolFault::ArgumentLength => f.write_str("invalid bulk length"),
            ProtocolFault::LongArgument => write!(
                f,
                "invalid bulk length: at most {MAX_READ} bytes of a command are read"
            ),
            ProtocolFault::TooLarge => {
                write!(f, "too big command: at most {MAX_READ} bytes of it are read")
            }
            ProtocolFault::NoLineEnd => f.write_str("expected CRLF behind an argument"),
            ProtocolFault::LongLine => {
                write!(f, "too big inline request: it has at most {MAX_LINE} bytes")
            }
            ProtocolFault::Quotes => f.write_str("unbalanced quotes in request"),
        }
    }
}

impl Error for ProtocolFault {}
