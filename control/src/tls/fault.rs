use std::error::Error;
use std::fmt;
use std::io;
use std::path::PathBuf;

/// Why TLS can't be configured from the files. Each fault names the file.
#[derive(Debug)]
pub enum TlsFault {
    /// The file can't be read, or isn't PEM.
    Unreadable(PathBuf, io::Error),
    /// It has no certificate.
    NoCertificate(PathBuf),
    /// It has no key.
    NoKey(PathBuf),
    /// Its content isn't accepted, for this reason.
    NotTaken(PathBuf, String),
}

impl fmt::Display for TlsFault {
    fn fmt(&self, f: &mut fmt::Formatter<'_>) -> fmt::Result {
        match self {
            TlsFault::Unreadable(file, error) => write!(f, "{}: {error}", file.display()),
            TlsFault::NoCertificate(file) => {
                write!(f, "{}: it has no certificate in PEM", file.display())
            }
            TlsFault::NoKey(file) => write!(f, "{}: it has no key in PEM", file.display()),
            TlsFault::NotTaken(file, why) => write!(f, "{}: {why}", file.display()),
        }
    }
}

impl Error for TlsFault {}
