use crate::fault::{PublishFault, RoutesFault};
use crate::pass::Pass;
use crate::raw::{self, Handle, RouteParts};
use crate::server_id::ServerId;
use crate::shard_id::ShardId;
use std::sync::{Mutex, MutexGuard, PoisonError};

/// A shard's owner at a generation.
#[derive(Clone, Copy, Debug, PartialEq, Eq)]
pub struct Route {
    /// The owner.
    pub server: ServerId,
    /// The shard's generation when the route was made.
    pub generation: u64,
}

/// The publisher of a map of routes, which tells clients where to send requests. Threads may share it. Publishing and
/// making a [`Router`] take its lock; reading by a router takes no lock.
///
/// Nothing publishes by itself, not even [`Control::migrate`](crate::Control::migrate). In a migration, publish the new
/// owner between `add_shard` and `drop_shard`, because the previous owner forwards to the new one until `drop_shard`.
///
/// ```
/// use durkenzo::{Board, Routes, ServerId, ShardId};
///
/// let board = Board::builder().servers(2).build(vec![0u64; 4])?;
/// let routes = Routes::new(board.count())?;
/// let mut router = routes.router()?;
/// let (shard, owner) = (ShardId::new(3)?, ServerId::new(2)?);
/// board.control().assign(shard, owner)?;
/// let mut pass = board.pass(ServerId::new(1)?)?;
/// routes.publish(&mut pass, shard)?;
/// assert_eq!(router.route(shard).map(|it| it.server), Some(owner));
/// # Ok::<(), Box<dyn std::error::Error>>(())
/// ```
#[derive(Debug)]
pub struct Routes {
    publisher: Mutex<Handle>,
    count: usize,
}

/// Reads a map of routes. A route that it reads may be old, but never older than one that it read before. A router may
/// move to another thread, never waits, and still reads after its [`Routes`] is dropped.
#[derive(Debug)]
pub struct Router {
    handle: Handle,
}

impl Routes {
    /// Makes a map of this many shards, 1 to 4,096. At first no shard has a route.
    ///
    /// # Errors
    ///
    /// `NoShard` or `TooMany` if there is no such map, or `NoMemory`.
    pub fn new(count: usize) -> Result<Routes, RoutesFault> {
        let mut publisher = Handle::empty();
        // SAFETY: only this call uses the handle.
        match unsafe { raw::durkenzo_publisher(&mut publisher, count) } {
            0 => Ok(Routes {
                publisher: Mutex::new(publisher),
                count,
            }),
            code => Err(RoutesFault::of(code)),
        }
    }

    /// Makes a router of the map. The router has seen everything that was published so far.
    ///
    /// # Errors
    ///
    /// `NoMemory` if memory for the router is refused.
    pub fn router(&self) -> Result<Router, RoutesFault> {
        let mut handle = Handle::empty();
        // SAFETY: the publisher's handle is locked, and only this call uses the other.
        match unsafe { raw::durkenzo_router(&mut *self.publisher(), &mut handle) } {
            0 => Ok(Router { handle }),
            code => Err(RoutesFault::of(code)),
        }
    }

    /// Publishes the shard's owner at its generation, as the pass sees it. The pass may act as any server. All passes
    /// must be of one board, because routes are compared by generations, which count in one board only. This call can't
    /// tell boards apart.
    ///
    /// # Errors
    ///
    /// `UnknownShard` if the board or the map has no such shard, `WrongPhase` if nobody owns it, or `OldRoute` if its
    /// last route is as new. The map doesn't change then.
    pub fn publish<T>(&self, pass: &mut Pass<T>, shard: ShardId) -> Result<Route, PublishFault> {
        let mut publisher = self.publisher();
        let record = pass
            .look(shard)
            .ok()
            .filter(|_| shard.index() < self.count)
            .ok_or(PublishFault::UnknownShard)?;
        let route = Route {
            server: record
                .owner()
                .and_then(ServerId::of)
                .ok_or(PublishFault::WrongPhase)?,
            generation: record.generation,
        };
        let Route { server, generation } = route;
        // SAFETY: the publisher's handle is locked.
        match unsafe {
            raw::durkenzo_publish(&mut *publisher, shard.get(), server.get(), generation)
        } {
            0 => Ok(route),
            code => Err(PublishFault::of(code)),
        }
    }

    /// Returns the publisher's handle. Poison can be ignored, because no holder can panic in the middle of a change.
    fn publisher(&self) -> MutexGuard<'_, Handle> {
        self.publisher
            .lock()
            .unwrap_or_else(PoisonError::into_inner)
    }
}

impl Router {
    /// Returns the shard's route, if it has one. The route is the last one of the publications that the router has now
    /// seen, which include all that it had seen before. A shard outside of the map has no route.
    #[inline]
    pub fn route(&mut self, shard: ShardId) -> Option<Route> {
        let mut parts = RouteParts::default();
        // SAFETY: this router is borrowed exclusively and owns the handle. If the shard is refused, the parts stay 0.
        unsafe { raw::durkenzo_route(&mut self.handle, shard.get(), &mut parts) };
        let generation = parts.generation;
        ServerId::of(parts.server).map(|server| Route { server, generation })
    }
}
