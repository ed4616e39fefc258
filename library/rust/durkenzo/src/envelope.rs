use crate::board::Shared;
use crate::pass::Mode;
use crate::raw::{self, AnswerParts, Handle, SentParts};
use crate::reply::Reply;
use crate::sent::Sent;
use crate::server_id::ServerId;
use crate::service::Texts;
use crate::shard_id::ShardId;
use std::fmt;
use std::sync::Arc;

/// A request to the sample service on its way, with all that its sender had seen. The library keeps its mode and its
/// hops, so a program that forwards a request only has to pass the envelope on.
pub struct Envelope {
    pub(crate) handle: Handle,
    pub(crate) shared: Arc<Shared<Texts>>,
    shard: ShardId,
}

impl Envelope {
    pub(crate) fn new(handle: Handle, shared: Arc<Shared<Texts>>, shard: ShardId) -> Envelope {
        Envelope {
            handle,
            shared,
            shard,
        }
    }

    /// Returns the shard of its request.
    pub fn shard(&self) -> ShardId {
        self.shard
    }

    /// Returns how it came to the server that serves it next.
    pub fn mode(&mut self) -> Mode {
        self.sent().mode
    }

    /// Returns how often it was forwarded, from 0 to 4.
    pub fn hops(&mut self) -> u8 {
        self.sent().hops
    }

    /// Returns the envelope without its request and its note. Send this to another process with the request. There
    /// [`ServicePass::received`](crate::ServicePass::received) makes the envelope again.
    pub fn sent(&mut self) -> Sent {
        let mut parts = SentParts::default();
        // SAFETY: this envelope is borrowed exclusively and owns the handle.
        let code = unsafe { raw::durkenzo_sent(&mut self.handle, &mut parts) };
        assert_eq!(code, 0, "the handle of an envelope keeps it");
        Sent::of(&parts)
    }
}

impl fmt::Debug for Envelope {
    fn fmt(&self, f: &mut fmt::Formatter<'_>) -> fmt::Result {
        f.debug_struct("Envelope")
            .field("shard", &self.shard)
            .finish_non_exhaustive()
    }
}

/// The answer to a request, and all that its server had then seen.
pub struct Answer {
    pub(crate) handle: Handle,
    pub(crate) shared: Arc<Shared<Texts>>,
    number: u64,
    place: u64,
    server: ServerId,
    reply: Reply,
}

impl Answer {
    pub(crate) fn new(envelope: Envelope, parts: &AnswerParts, reply: Reply) -> Answer {
        let Envelope { handle, shared, .. } = envelope;
        Answer {
            handle,
            shared,
            number: parts.number,
            place: parts.place,
            server: ServerId::of(parts.server).expect("a server executed it"),
            reply,
        }
    }

    /// Returns the number of its envelope.
    pub fn number(&self) -> u64 {
        self.number
    }

    /// Returns how many requests of the shard were executed before this one.
    pub fn place(&self) -> u64 {
        self.place
    }

    /// Returns the server that executed the request.
    pub fn server(&self) -> ServerId {
        self.server
    }

    /// Returns the reply.
    pub fn reply(&self) -> &Reply {
        &self.reply
    }
}

impl fmt::Debug for Answer {
    fn fmt(&self, f: &mut fmt::Formatter<'_>) -> fmt::Result {
        f.debug_struct("Answer")
            .field("number", &self.number)
            .field("place", &self.place)
            .field("server", &self.server)
            .field("reply", &self.reply)
            .finish_non_exhaustive()
    }
}
