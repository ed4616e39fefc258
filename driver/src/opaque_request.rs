use crate::size::Size;
use crate::Numbered;

/// A request of a user's own service, whose bytes only its [`Machine`](crate::Machine) understands.
#[derive(Clone, Debug, PartialEq, Eq)]
pub enum OpaqueRequest {
    /// It only reads.
    Read(Vec<u8>),
    /// It is made. If its client numbers it, it is made once, however often and wherever it is asked for, and each time
    /// its first answer is returned.
    Write(Option<Numbered>, Vec<u8>),
}

/// The first byte of a request that only reads, by which the proved server knows it.
const READ: u8 = 1;
/// The first byte of any other request. No request of the sample service begins with it, so the log of one service
/// isn't taken for that of the other.
const WRITE: u8 = 0;

impl OpaqueRequest {
    /// Returns whether it only reads.
    pub fn only_reads(&self) -> bool {
        match self {
            OpaqueRequest::Read(_) => true,
            OpaqueRequest::Write(..) => false,
        }
    }

    /// Returns the number that its client gave it, if it did.
    pub fn numbered(&self) -> Option<Numbered> {
        match self {
            OpaqueRequest::Read(_) => None,
            OpaqueRequest::Write(numbered, _) => *numbered,
        }
    }

    /// Returns how much of a batch it takes.
    pub(crate) fn size(&self) -> Size {
        match self {
            OpaqueRequest::Read(_) => Size::default(),
            OpaqueRequest::Write(_, request) => Size::of_one(1 + request.len()),
        }
    }

    /// Returns its bytes in a log: its kind, and then the user's.
    pub(crate) fn bytes(&self) -> Vec<u8> {
        let (kind, request) = match self {
            OpaqueRequest::Read(request) => (READ, request),
            OpaqueRequest::Write(_, request) => (WRITE, request),
        };
        [&[kind], request.as_slice()].concat()
    }

    /// Returns the user's bytes in these of a request that is made, or nothing if another service wrote them.
    pub(crate) fn written(bytes: &[u8]) -> Option<&[u8]> {
        bytes.strip_prefix(&[WRITE])
    }

    /// Returns the user's bytes in these of a request that only reads, or nothing if another service wrote them.
    pub(crate) fn read(bytes: &[u8]) -> Option<&[u8]> {
        bytes.strip_prefix(&[READ])
    }

    /// Returns whether a request of these bytes only reads.
    pub(crate) fn is_read(bytes: &[u8]) -> bool {
        bytes.first() == Some(&READ)
    }
}
