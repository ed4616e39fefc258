use std::io;

/// Why a simulated disk doesn't do a call.
#[derive(Clone, Copy, Debug, PartialEq, Eq)]
pub enum DiskFailure {
    /// The disk has no room left.
    Full,
    /// There is no such file or folder.
    Missing,
    /// The disk fails, or the process that calls it was killed.
    Broken,
}

impl From<DiskFailure> for io::Error {
    fn from(failure: DiskFailure) -> io::Error {
        match failure {
            DiskFailure::Full => io::Error::other("the simulated disk is full"),
            DiskFailure::Missing => io::ErrorKind::NotFound.into(),
            DiskFailure::Broken => io::Error::other("the simulated disk fails"),
        }
    }
}
