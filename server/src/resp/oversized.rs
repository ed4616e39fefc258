use super::{MAX_ARGUMENTS, MAX_COMMAND};
use std::fmt;

/// Why a command is read to its end and refused: it is larger than a command may be.
#[derive(Clone, Copy, Debug, PartialEq, Eq)]
pub enum Oversized {
    /// Too many arguments.
    Arguments,
    /// Too many bytes.
    Bytes,
    /// More bytes than there is memory for now.
    Memory,
}

impl fmt::Display for Oversized {
    fn fmt(&self, f: &mut fmt::Formatter<'_>) -> fmt::Result {
        match self {
            Oversized::Arguments => write!(
                f,
                "a command has at most {MAX_ARGUMENTS} arguments, its name among them"
            ),
            Oversized::Bytes => write!(f, "a command has at most {MAX_COMMAND} bytes"),
            Oversized::Memory => f.write_str("there is no memory for the command now"),
        }
    }
}
