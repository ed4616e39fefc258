use super::links_inner::LinksInner;
use super::Host;
use std::sync::atomic::Ordering;
use std::sync::Arc;

/// The most connections of processes: so many for each server of the cluster, and some more.
const MOST_OF_A_SERVER: usize = 4;
const MOST_BESIDES: usize = 16;

/// One of the connections that processes may have to this one. The slot counts for as long as it exists.
pub(super) struct ConnectionSlot<H: Host>(Arc<LinksInner<H>>);

impl<H: Host> ConnectionSlot<H> {
    /// Takes a slot, if one is free.
    pub(super) fn take(inner: &Arc<LinksInner<H>>) -> Option<ConnectionSlot<H>> {
        let most = MOST_OF_A_SERVER * usize::from(inner.servers()) + MOST_BESIDES;
        let taken = inner.serving.fetch_add(1, Ordering::Relaxed);
        let slot = ConnectionSlot(inner.clone());
        (taken < most).then_some(slot)
    }
}

impl<H: Host> Drop for ConnectionSlot<H> {
    fn drop(&mut self) {
        self.0.serving.fetch_sub(1, Ordering::Relaxed);
    }
}
