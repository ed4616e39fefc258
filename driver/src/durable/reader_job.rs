use crate::base_parts::KeyedParts;
use crate::proved::Core;
use crate::shard::Ticket;

/// A job of a reader thread, which waits for the store.
pub(crate) enum ReaderJob {
    /// Recovers this shard for a server, which may have kept the requests that it had made.
    Shard(u16, Ticket, Option<Core>),
    /// For this server, looks for keys that the base of this shard has replaced.
    Passing(u16, u16),
    /// Reads this shard's record.
    Record(u16),
    /// Takes another number for the process, for this shard.
    Process(u16),
    /// Takes another number for the process, for all shards.
    ProcessOfAll,
    /// Checks whether there is room for a base of this shard, and then writes the base.
    Room(u16, Ticket, KeyedParts),
}

/// The call that tells a shard the result of a reading. It may come later than the reading.
pub(crate) type ReadBack = Box<dyn FnOnce() + Send>;
