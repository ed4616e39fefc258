use crate::proved::{Core, LogServer, TextServer};
use crate::recovery::ServerPlace;
use crate::{Begin, Machine, ServerFault};
use std::marker::PhantomData;

/// The service that the shards of a process have: which servers decide their requests.
pub(crate) trait ShardService: Send + Sync {
    /// Makes a server of a shard. It has read nothing yet.
    fn server(&self, place: ServerPlace) -> Result<Core, ServerFault>;

    /// Returns whether its requests begin like this one.
    fn takes(&self, begin: &Begin) -> bool;

    /// Returns whether each base has a snapshot.
    fn has_snapshots(&self) -> bool;
}

/// The sample service: each shard is a map.
#[derive(Debug)]
pub(crate) struct Texts;

impl ShardService for Texts {
    fn server(&self, place: ServerPlace) -> Result<Core, ServerFault> {
        Ok(Box::new(TextServer::new(place)?))
    }

    fn takes(&self, begin: &Begin) -> bool {
        !matches!(begin, Begin::Opaque(_))
    }

    fn has_snapshots(&self) -> bool {
        false
    }
}

/// A user's own service: each shard is such a machine.
pub(crate) struct Machines<M>(PhantomData<fn() -> M>);

impl<M> Default for Machines<M> {
    fn default() -> Machines<M> {
        Machines(PhantomData)
    }
}

impl<M: Machine> ShardService for Machines<M> {
    fn server(&self, place: ServerPlace) -> Result<Core, ServerFault> {
        Ok(Box::new(LogServer::<M>::new(place)?))
    }

    fn takes(&self, begin: &Begin) -> bool {
        matches!(begin, Begin::Opaque(_))
    }

    fn has_snapshots(&self) -> bool {
        true
    }
}
