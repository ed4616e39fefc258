use crate::body_lock::BodyInUse;
use crate::fleet_inner::FleetInner;
use crate::{Call, Service, Shard};
use durkenzo_store_sys::ShardView;
use std::fmt;
use std::ops::{Deref, DerefMut};

/// The right to execute a call of a shard, together with the shard's body. No other call uses the body as long as the
/// permit exists. A task may take the permit from thread to thread.
pub struct Permit<'a, S: Service> {
    pub(crate) fleet: &'a FleetInner<S>,
    pub(crate) body: BodyGuard<'a, S::Body>,
    /// What this process knew when the call began. It lets go of no record while the body is in use.
    pub(crate) view: ShardView,
    pub(crate) from: u16,
    pub(crate) shard: Shard,
}

/// A body in use that is there.
pub(crate) struct BodyGuard<'a, B>(BodyInUse<'a, B>);

impl<'a, B> BodyGuard<'a, B> {
    /// Returns the guard, if there is a body.
    pub(crate) fn new(guard: BodyInUse<'a, B>) -> Option<BodyGuard<'a, B>> {
        guard.is_some().then_some(BodyGuard(guard))
    }
}

impl<B> Deref for BodyGuard<'_, B> {
    type Target = B;

    fn deref(&self) -> &B {
        self.0
            .as_ref()
            .expect("a guard is made only if there is a body")
    }
}

impl<B> DerefMut for BodyGuard<'_, B> {
    fn deref_mut(&mut self) -> &mut B {
        self.0
            .as_mut()
            .expect("a guard is made only if there is a body")
    }
}

impl<S: Service> Permit<'_, S> {
    /// Returns the shard, with its fencing token.
    pub fn shard(&self) -> Shard {
        self.shard
    }

    /// Returns the fencing token, as [`Shard::fence`] does.
    pub fn fence(&self) -> u64 {
        self.shard.fence()
    }

    /// Returns the body.
    pub fn body(&mut self) -> &mut S::Body {
        &mut self.body
    }

    /// Makes the service answer the request.
    pub fn answer(&mut self, request: &[u8]) -> Vec<u8> {
        let call = Call::new(self.shard, request);
        self.fleet.service.answer(&mut self.body, call)
    }

    /// Returns whether this process may still execute. If it may not, its lease may have ended, and another process may
    /// have the shard by now. In that case you must tell the caller only that the call may have been made.
    pub fn holds(&self) -> bool {
        self.fleet.still_holds(self)
    }
}

impl<S: Service> Deref for Permit<'_, S> {
    type Target = S::Body;

    fn deref(&self) -> &S::Body {
        &self.body
    }
}

impl<S: Service> DerefMut for Permit<'_, S> {
    fn deref_mut(&mut self) -> &mut S::Body {
        &mut self.body
    }
}

impl<S: Service> fmt::Debug for Permit<'_, S> {
    fn fmt(&self, f: &mut fmt::Formatter<'_>) -> fmt::Result {
        f.debug_struct("Permit")
            .field("shard", &self.shard)
            .finish_non_exhaustive()
    }
}
