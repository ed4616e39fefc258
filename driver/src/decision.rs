use crate::MapReply;
use durkenzo_store::Revision;
use durkenzo_store_sys as sys;

pub(crate) use durkenzo_store_sys::Passing;

/// The decision of a proved server about a request.
#[derive(Debug)]
pub(crate) enum Decision {
    /// The request is made, with this reply.
    Replied(MapReply),
    /// It waits for the next transaction.
    Waits,
    /// This server executes it, and it was then forwarded so often.
    Forwards(u16, u8),
    /// It isn't executed here and now.
    Refused,
    /// The server has read nothing.
    NotRead,
    /// Another server executes it, but it was forwarded as often as it may be.
    TooFar,
    /// A later number of its client was made, so this one won't be made any more.
    Passed,
    /// Its client was forgotten, so it won't be made any more.
    Forgotten,
    /// The server keeps as many clients as it may, even without those that it may forget.
    TooManyClients,
}

/// The compares and the writes of a server's transaction.
#[derive(Debug)]
pub(crate) struct ServerTransaction {
    pub(crate) stood: Revision,
    pub(crate) logged: Revision,
    /// The number of the batch, or 0 if there is none.
    pub(crate) number: u64,
    pub(crate) head: Vec<u8>,
    pub(crate) batch: Vec<u8>,
}

/// A base that a server writes.
#[derive(Debug)]
pub(crate) struct Base {
    /// How many batches it stands for.
    pub(crate) number: u64,
    /// The bytes of its parts.
    pub(crate) parts: Vec<Vec<u8>>,
    /// The state of the service after those batches, if its servers keep it themselves.
    pub(crate) snapshot: Option<Vec<u8>>,
}

impl From<sys::Base> for Base {
    fn from(base: sys::Base) -> Base {
        let sys::Base { number, parts } = base;
        Base {
            number,
            parts,
            snapshot: None,
        }
    }
}

/// The answer to a request that was made, or to a read.
#[derive(Debug)]
pub(crate) struct ClientReply {
    pub(crate) client: u64,
    pub(crate) number: u64,
    pub(crate) reply: MapReply,
}
