use crate::id_fault::IdFault;
use crate::limits::MAX_SERVER;
use std::fmt;
use std::num::NonZeroU16;

/// The number of a server, from 1 to [`MAX_SERVER`]. It never stands for a shard. An `Option` of it takes no more room.
#[derive(Clone, Copy, Debug, PartialEq, Eq, PartialOrd, Ord, Hash)]
pub struct ServerId(NonZeroU16);

impl ServerId {
    /// The server 1.
    pub const FIRST: ServerId = ServerId(NonZeroU16::MIN);

    /// Returns the server of this number.
    ///
    /// # Errors
    ///
    /// `Server` if the number is 0, or above [`MAX_SERVER`].
    pub const fn new(number: u16) -> Result<ServerId, IdFault> {
        match NonZeroU16::new(number) {
            Some(server) if number <= MAX_SERVER => Ok(ServerId(server)),
            _ => Err(IdFault::Server),
        }
    }

    /// Returns the server with this number, which the library gave. There is none with 0.
    pub(crate) fn of(number: u16) -> Option<ServerId> {
        NonZeroU16::new(number).map(ServerId)
    }

    /// Returns the servers 1 to this number, in order. They are at most 4,095.
    pub fn all(count: u16) -> impl DoubleEndedIterator<Item = ServerId> + Clone {
        (1..=count.min(MAX_SERVER)).filter_map(ServerId::of)
    }

    /// Returns the server's number.
    #[must_use]
    pub const fn get(self) -> u16 {
        self.0.get()
    }

    /// Returns the server's place in a list of all servers, of which the first is at 0.
    #[must_use]
    pub const fn index(self) -> usize {
        self.0.get() as usize - 1
    }
}

impl fmt::Display for ServerId {
    fn fmt(&self, f: &mut fmt::Formatter<'_>) -> fmt::Result {
        self.0.fmt(f)
    }
}

impl From<ServerId> for u16 {
    fn from(server: ServerId) -> u16 {
        server.get()
    }
}

impl TryFrom<u16> for ServerId {
    type Error = IdFault;

    fn try_from(number: u16) -> Result<ServerId, IdFault> {
        ServerId::new(number)
    }
}
