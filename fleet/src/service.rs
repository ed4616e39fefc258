use crate::{Changes, Shard};
use std::error::Error;

/// Why the service can't add a shard, or a piece of its body. The process tries again.
pub type Fault = Box<dyn Error + Send + Sync>;

/// The trait that a user implements. Each process of a fleet has one value of it, which all its threads share.
pub trait Service: Send + Sync + 'static {
    /// The state that the service keeps for a shard. Only one call at a time uses it.
    type Body: Send + 'static;

    /// Returns the body of a shard that comes to this process.
    ///
    /// # Errors
    ///
    /// If the service can't make the body yet. The shard's calls wait, and `add` is called again a little later.
    fn add(&self, shard: Shard, came: Came<'_>) -> Result<Self::Body, Fault>;

    /// Answers a call. An answer must have at most 1 MiB. If it is longer, the caller doesn't get it: it hears only
    /// that the call may have been made, and why.
    fn answer(&self, body: &mut Self::Body, call: Call<'_>) -> Vec<u8>;

    /// Returns all bytes that the next owner needs. After that, no call is answered with this body, unless the next
    /// owner fails before it becomes the owner. In that case calls go on with the body as it is, so this must leave the
    /// body usable.
    fn hand_over(&self, body: &mut Self::Body) -> Vec<u8>;

    /// Prepares for a shard that will come from that server. The server owns the shard, and answers its calls in the
    /// meantime.
    fn prepare_add(&self, _shard: Shard, _from: Option<u16>) {}

    /// Drops the body of a shard that belongs to another server now.
    fn dropped(&self, _shard: Shard, body: Self::Body) {
        drop(body);
    }

    /// Returns how the service moves a body in pieces while it answers calls, if the service supports that. A large
    /// body then moves with hardly a stop. `hand_over` is called only if the next owner takes no pieces, or if a piece
    /// can't be sent.
    fn changes(&self) -> Option<&dyn Changes<Self::Body>> {
        None
    }
}

/// How a shard comes to a process.
#[derive(Clone, Copy, Debug, PartialEq, Eq)]
pub enum Came<'a> {
    /// Nobody had the shard before. It begins under the first record that it ever had, and that record was written
    /// while this process was already there.
    New,
    /// The previous owner handed over these bytes with [`Service::hand_over`].
    Handed(&'a [u8]),
    /// The body that was in memory is lost, for example because the previous owner failed or because a callback
    /// panicked. A process also gets this if it can't know whether anybody had the shard before. A service with a
    /// database reads the state there.
    Lost,
}

/// A call of a client.
#[derive(Clone, Copy, Debug)]
pub struct Call<'a> {
    shard: Shard,
    request: &'a [u8],
}

impl<'a> Call<'a> {
    pub(crate) fn new(shard: Shard, request: &'a [u8]) -> Call<'a> {
        Call { shard, request }
    }

    /// Returns the shard of the call's key.
    pub fn shard(&self) -> Shard {
        self.shard
    }

    /// Returns the fencing token, as [`Shard::fence`] does.
    pub fn fence(&self) -> u64 {
        self.shard.fence()
    }

    /// Returns the bytes of the client's request.
    pub fn request(&self) -> &'a [u8] {
        self.request
    }
}
