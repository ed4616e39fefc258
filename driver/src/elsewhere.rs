use crate::{Acks, Member, WorkStep};
use durkenzo_store::Revision;
use std::fmt;
use std::sync::Arc;
use std::time::Instant;

/// The only server of a process. Other processes run the others over the same store.
pub struct Own {
    /// The server, as the store knows it.
    pub member: Arc<Member>,
    /// Gets work that another process's server executes.
    pub elsewhere: HandOver,
    /// When the process acks records.
    pub acks: Acks,
}

/// Gets the steps of a client, in their order, for another server. It must not wait. It must send them there in one
/// message. Later it must tell each step its answer with [`crate::Work::answered`], or give the steps back with
/// [`crate::Durable::submit_again`].
pub type HandOver = Box<dyn Fn(Elsewhere, Vec<WorkStep>) + Send + Sync>;

/// The destination of steps, none of which was done.
#[derive(Clone, Debug, PartialEq, Eq)]
pub struct Elsewhere {
    /// The shard.
    pub shard: u16,
    /// The server that executes it.
    pub server: u16,
    /// How they get there.
    pub came: Came,
    /// Since when they wait.
    pub since: Instant,
    /// How they came here, if another process sent them.
    pub(crate) first_came: Option<Came>,
}

impl Elsewhere {
    /// Returns the destination of steps that clients gave here.
    pub fn new(shard: u16, server: u16, came: Came, since: Instant) -> Elsewhere {
        Elsewhere {
            shard,
            server,
            came,
            since,
            first_came: None,
        }
    }
}

/// How work came from another process.
#[derive(Clone, Copy, Debug, PartialEq, Eq)]
pub struct Came {
    /// The server that forwarded it; 0 if a client gave it to a server that isn't of the shard.
    pub from: u16,
    /// How often it was forwarded.
    pub hops: u8,
    /// The revision of the shard's record by which it was sent here.
    pub revision: Revision,
}

impl Came {
    /// Work that a client gave here.
    pub const HERE: Came = Came {
        from: 0,
        hops: 0,
        revision: Revision::NEVER,
    };
}

impl fmt::Debug for Own {
    fn fmt(&self, f: &mut fmt::Formatter<'_>) -> fmt::Result {
        f.debug_struct("Own")
            .field("member", &self.member)
            .finish_non_exhaustive()
    }
}
