use crate::size::Size;
use crate::{Key, MapReply, MapRequest, OpaqueRequest, Range};
use durkenzo_store::Revision;
use thiserror::Error;

/// The values that were read, or the replies to the writes; or why the work wasn't done.
pub type WorkOutcome = Result<Vec<MapReply>, NotDone>;

/// A client's work on one shard.
pub trait Work: Send {
    /// Returns the writes of work that began with [`Begin::Change`], if its keys have these values. Nobody else writes
    /// those keys until the writes are made. If somebody did, none of them is made, and this is called again.
    fn decide(&mut self, held: Vec<MapReply>) -> Vec<MapRequest>;

    /// Returns whether somebody still waits for the outcome. If nobody does, and the work hasn't begun, the shard drops
    /// it.
    fn is_wanted(&self) -> bool;

    /// Returns the bytes from which another process of this program reads the work.
    fn spell(&self) -> Vec<u8>;

    /// Ends the work: another process has given it this answer. It must not wait.
    fn answered(self: Box<Self>, answer: &[u8]);

    /// Ends the work with this outcome. It must not wait.
    fn end(self: Box<Self>, outcome: WorkOutcome);
}

/// How work begins.
#[derive(Clone, Debug, PartialEq, Eq)]
pub enum Begin {
    /// It only reads these keys.
    Read(Vec<Key>),
    /// It reads the first pairs in this range. The replies are a [`MapReply::Pair`] for each.
    Scan(Range),
    /// It lists the first keys in this range. The replies are a [`MapReply::Key`] for each.
    Keys(Range),
    /// It counts the keys. The reply is their number.
    Count,
    /// It reads these keys, and decides by their values what it writes.
    Change(Vec<Key>),
    /// It makes these writes, all at once or none.
    Write(Vec<MapRequest>),
    /// It makes these writes once, however often and wherever it is asked for, and each time returns its first replies.
    Numbered(Numbered, Vec<MapRequest>),
    /// It is this request of a user's own service. The reply is a [`MapReply::Text`] with the machine's answer.
    Opaque(OpaqueRequest),
}

impl Begin {
    /// Returns whether it changes nothing, so that doing it twice makes no difference.
    pub fn only_reads(&self) -> bool {
        match self {
            Begin::Read(_) | Begin::Scan(_) | Begin::Keys(_) | Begin::Count => true,
            Begin::Change(_) | Begin::Write(_) | Begin::Numbered(..) => false,
            Begin::Opaque(request) => request.only_reads(),
        }
    }

    /// Returns its number, if its client gave it one.
    pub(crate) fn numbered(&self) -> Option<Numbered> {
        match self {
            Begin::Numbered(numbered, _) => Some(*numbered),
            Begin::Opaque(request) => request.numbered(),
            Begin::Read(_)
            | Begin::Scan(_)
            | Begin::Keys(_)
            | Begin::Count
            | Begin::Change(_)
            | Begin::Write(_) => None,
        }
    }

    /// Returns its writes to keys, if they don't depend on values.
    pub(crate) fn requests(&self) -> &[MapRequest] {
        match self {
            Begin::Write(requests) | Begin::Numbered(_, requests) => requests,
            Begin::Read(_)
            | Begin::Scan(_)
            | Begin::Keys(_)
            | Begin::Count
            | Begin::Change(_)
            | Begin::Opaque(_) => &[],
        }
    }

    /// Returns how much of a batch it takes, if that doesn't depend on values.
    pub(crate) fn size(&self) -> Size {
        match self {
            Begin::Opaque(request) => request.size(),
            other => Size::of(other.requests()),
        }
    }

    /// Returns whether it writes nothing at first, or only deletes.
    pub(crate) fn takes_no_room(&self) -> bool {
        match self {
            Begin::Opaque(request) => request.only_reads(),
            other => other.requests().iter().all(MapRequest::deletes),
        }
    }

    /// Returns why no shard takes it, if none does: the shard can't keep note of the number, or the writes are too
    /// large.
    pub(crate) fn refused(&self) -> Option<NotDone> {
        match self.numbered() {
            Some(numbered) if !numbered.fits(self.requests().len()) => {
                let why = format!(
                    "clients are 1 to {}, their numbers begin with 1, and one is of {} requests at most",
                    Numbered::LAST_CLIENT,
                    Numbered::MOST_REQUESTS
                );
                Some(NotDone::NotMade(why))
            }
            _ => NotDone::if_larger(self.size()),
        }
    }
}

/// The number that a client gives its work. The client must always give the same number to the same requests. Once a
/// greater one was made, smaller ones are [`NotDone::Passed`].
#[derive(Clone, Copy, Debug, PartialEq, Eq, Hash)]
pub struct Numbered {
    /// The client, from 1 on.
    pub client: u64,
    /// Its number, from 1 on.
    pub number: u64,
}

impl Numbered {
    /// The greatest number of a client. Shards keep the last writes of each client forever, so they have room for all
    /// clients.
    pub const LAST_CLIENT: u64 = 4_096;
    /// The most requests that are written under one number.
    pub const MOST_REQUESTS: usize = 16;
    /// The most requests of which a shard keeps note.
    pub(crate) const MOST_KEPT: usize = Numbered::LAST_CLIENT as usize * Numbered::MOST_REQUESTS;
    const PLACE_BITS: u32 = 8;

    /// Returns whether a shard can keep note of it, with so many requests.
    fn fits(self, requests: usize) -> bool {
        let is_client = (1..=Numbered::LAST_CLIENT).contains(&self.client);
        is_client && self.number > 0 && requests <= Numbered::MOST_REQUESTS
    }

    /// Returns the number by which the shard keeps the client's first request. The others follow. All are above those
    /// of processes, so none is ever forgotten.
    pub(crate) fn first(self) -> u64 {
        1 << 63 | self.client << Numbered::PLACE_BITS
    }
}

/// Work, and how it begins.
pub struct WorkStep {
    /// How it begins.
    pub begin: Begin,
    /// The work.
    pub work: Box<dyn Work>,
}

/// Why work isn't done.
#[derive(Clone, Debug, PartialEq, Eq, Error)]
pub enum NotDone {
    /// The shard was paused for the whole time.
    #[error("the shard is paused")]
    Paused,
    /// The shard has no owner.
    #[error("nobody owns the shard")]
    Vacant,
    /// The server that owns the shard is away.
    #[error("server {0}, which owns the shard, is away")]
    Away(u16),
    /// For the whole time, one server of the shard left it to the other.
    #[error("no server had the shard ready")]
    Busy,
    /// As much work waits for the shard as allowed.
    #[error("too many commands wait for the shard")]
    Crowded,
    /// The store's content is wrong.
    #[error("what lies in the store is wrong: {0}")]
    Damaged(String),
    /// The store didn't make it, and won't, because it is full. Existing data can be read.
    #[error("{0}")]
    Full(String),
    /// It is larger than the store takes at once, so nothing of it is made.
    #[error("{0}")]
    TooLarge(String),
    /// The server that executes the shard hasn't read it yet, for instance soon after a start or a move.
    #[error("the store hasn't given the shard so far")]
    Unread,
    /// The store didn't make it, and won't, or said why it doesn't return the shard.
    #[error("the store didn't make it: {0}")]
    NotMade(String),
    /// It may have been made.
    #[error("it isn't known whether it was made: {0}")]
    Unknown(String),
    /// Another server executes it, by the record of this revision or a later one. Nothing of it was made here.
    #[error("another server executes it, by the record of revision {0}")]
    Moved(Revision),
    /// A later number of its client was made, so this one won't be made from now on. Whether it was made before isn't
    /// kept.
    #[error("a later number of its client is made")]
    Passed,
    /// As many clients' numbers are kept as allowed, and its client's isn't among them.
    #[error("the shard keeps no further client's numbers")]
    TooManyClients,
    /// The process ends.
    #[error("the process ends")]
    Stopped,
}

impl NotDone {
    /// Returns the fault that these requests are more than can be written at once, if they are.
    pub(crate) fn if_too_large(requests: &[MapRequest]) -> Option<NotDone> {
        NotDone::if_larger(Size::of(requests))
    }

    /// Returns the fault that this is more than can be written at once, if it is.
    fn if_larger(size: Size) -> Option<NotDone> {
        let Size {
            requests: most,
            bytes,
        } = Size::MOST;
        let why = format!("at once {bytes} bytes are written at most, and {most} requests");
        (!size.is_within(Size::MOST)).then_some(NotDone::TooLarge(why))
    }
}
