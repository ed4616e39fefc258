use super::greeting::VERSION;
use std::error::Error;
use std::fmt;

/// Why the bytes of another process can't be read. The connection ends then.
#[derive(Clone, Copy, Debug, PartialEq, Eq)]
pub enum WireFault {
    /// They aren't the beginning of a connection between processes.
    NoPeer,
    /// They are of another version of this protocol.
    Version(u8),
    /// The other process refuses this version, and speaks that older one.
    Older(u8),
    /// A length is greater than allowed.
    TooLong,
    /// The bytes end too early.
    TooShort,
    /// Unexpected bytes follow.
    TooMuch,
    /// There is no such kind of frame.
    Kind(u8),
    /// There is no such kind of answer.
    Answer(u8),
    /// A flag is neither 0 nor 1.
    Flag(u8),
    /// A text isn't UTF-8.
    Text,
    /// The words of a command are malformed.
    Words,
}

impl fmt::Display for WireFault {
    fn fmt(&self, f: &mut fmt::Formatter<'_>) -> fmt::Result {
        match self {
            WireFault::NoPeer => f.write_str("it doesn't begin as another process does"),
            WireFault::Older(version) => write!(f, "it speaks version {version} alone"),
            WireFault::Version(version) => write!(f, "it speaks version {version}, not {VERSION}"),
            WireFault::TooLong => f.write_str("a length is greater than it may be"),
            WireFault::TooShort => f.write_str("a frame ends too early"),
            WireFault::TooMuch => f.write_str("a frame is longer than what it holds"),
            WireFault::Kind(kind) => write!(f, "there is no frame of kind {kind}"),
            WireFault::Answer(kind) => write!(f, "there is no answer of kind {kind}"),
            WireFault::Flag(byte) => write!(f, "{byte} is neither 0 nor 1"),
            WireFault::Text => f.write_str("a text isn't UTF-8"),
            WireFault::Words => f.write_str("the words of a command can't be read"),
        }
    }
}

impl Error for WireFault {}
