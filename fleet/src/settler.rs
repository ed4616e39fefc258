//! The work that a record asks of this process: to prepare for a shard, to hand it over, to begin it, or to drop it.
use crate::fleet_inner::FleetInner;
use crate::outgoing_copy::OutgoingCopy;
use crate::place::Place;
use crate::{Came, Fault, Service, Shard};
use durkenzo::{Record, Stand};
use std::future::{poll_fn, Future};
use std::panic::{catch_unwind, AssertUnwindSafe};
use std::pin::pin;
use std::sync::atomic::Ordering;
use std::task::Poll;
use std::time::Duration;

/// The longest time that a piece waits until this process has read the record under which the piece was sent.
const READ: Duration = Duration::from_millis(500);
/// How often this process looks whether it has read the record.
const LOOK: Duration = Duration::from_millis(2);

impl<S: Service> FleetInner<S> {
    /// Does the work that the shard's record asks for. If it can't be done yet, it is tried again.
    pub(crate) async fn settle(&self, shard: u16) {
        let place = &self.places[usize::from(shard)];
        let (by, record) = {
            let known = place.known();
            (known.to_settle(), known.record())
        };
        let settled = unless_panicked(self.settled(shard, place, record, by.is_freed));
        let is_done = settled.await.unwrap_or_else(|| {
            tracing::warn!(shard, "a callback of the service has panicked");
            false
        });
        let mut known = place.known();
        known.settles = false;
        known.settled = is_done.then_some(by);
        drop(known);
        place.queue.wake();
    }

    async fn settled(
        &self,
        shard: u16,
        place: &Place<S::Body>,
        record: Record,
        is_freed: bool,
    ) -> bool {
        let (own, generation) = (self.server(), record.generation);
        match record.stand {
            Stand::Serving(owner) | Stand::Prepared { owner, .. } | Stand::Taken { owner, .. }
                if owner == own =>
            {
                self.begin(shard, place).await
            }
            // A process that leaves must not take a shard.
            Stand::Prepared { next, .. } if next == own && self.closing.load(Ordering::Acquire) => {
                false
            }
            Stand::Prepared { owner, next } if next == own => {
                // A body from before is of no use, and the control waits for the ack.
                self.drop_body(shard, place, generation).await;
                self.prepare(shard, place, (owner, generation)).await
                    && self.ack(shard, place, generation).await
            }
            Stand::Forwarding { owner, next } if owner == own => {
                self.hand_over(shard, place, next, generation).await
            }
            Stand::Forwarding { next, .. } if next == own => {
                #[cfg(any(test, feature = "plants", feature = "simulated"))]
                let is_freed =
                    is_freed || self.options.plant == Some(crate::plant::Plant::NextBeginsAnew);
                // The owner has let go of it. If its body isn't here, another process of this server had got it, or no
                // process had.
                !is_freed || self.begin(shard, place).await
            }
            // Nothing is under way here any more, so the process that waits for this ack may go on.
            Stand::Paused(owner) if owner == own => self.ack(shard, place, generation).await,
            Stand::Vacant
            | Stand::Serving(_)
            | Stand::Prepared { .. }
            | Stand::Forwarding { .. }
            | Stand::Taken { .. }
            | Stand::Paused(_) => {
                self.drop_body(shard, place, generation).await;
                true
            }
        }
    }

    /// Begins the shard, if its body isn't here, or is from before others may have executed.
    async fn begin(&self, shard: u16, place: &Place<S::Body>) -> bool {
        let mut body = place.body().await;
        self.drop_stale(shard, place, &mut body);
        // A body that came from another owner is of no use here.
        *place.incoming() = None;
        let (holding, is_new, fence, copy) = {
            let mut known = place.known();
            let holding = known.holding();
            let of_before = |it: &mut OutgoingCopy| it.generation() < holding.generation;
            let copy = known.copy.take_if(of_before);
            known.spelled = None;
            (holding, known.is_new(), known.fence(), copy)
        };
        if let Some(body) = body.as_mut() {
            if let Some(changes) = self.service.changes().filter(|_| copy.is_some()) {
                changes.end_copy(body);
            }
            return true;
        }
        let came = if is_new { Came::New } else { Came::Lost };
        match self.service.add(Shard::new(shard, fence), came) {
            Ok(made) => {
                tracing::info!(shard, fence, ?came, "a shard begins here");
                *body = Some(made);
                let mut known = place.known();
                (known.had_body, known.failed_adds) = (true, 0);
                // If the record and the lease have changed in the meantime, the shard begins again.
                known.body_is_of = known.held_on(holding);
                known.body_is_of.is_some()
            }
            Err(error) => {
                self.tell_failed_add(shard, place, &error);
                false
            }
        }
    }

    /// Tells the operator that the service failed to add the shard, the more seldom the more often it failed.
    fn tell_failed_add(&self, shard: u16, place: &Place<S::Body>, error: &Fault) {
        let count = {
            let mut known = place.known();
            known.failed_adds += 1;
            known.failed_adds
        };
        if count.is_power_of_two() {
            let told =
                format!("shard {shard} isn't added, try {count}, so its calls wait: {error}");
            self.environment.tell(&told);
        }
    }

    /// Drops the body if it is from before another process may have executed.
    pub(crate) fn drop_stale(
        &self,
        shard: u16,
        place: &Place<S::Body>,
        body: &mut Option<S::Body>,
    ) {
        let (is_held, fence) = {
            let known = place.known();
            (known.body_is_of.is_some(), known.fence())
        };
        if let Some(stale) = body.take_if(|_| !is_held) {
            tracing::warn!(shard, "what was kept of the shard is too old");
            let mut known = place.known();
            (known.copy, known.spelled) = (None, None);
            drop(known);
            self.service.dropped(Shard::new(shard, fence), stale);
        }
    }

    /// Lets go of the record, after the call that is under way, and acks it. Returns whether that is done, or is no
    /// longer needed.
    async fn ack(&self, shard: u16, place: &Place<S::Body>, generation: u64) -> bool {
        let _body = place.body().await;
        let mut known = place.known();
        if known.record().generation != generation {
            return true;
        }
        let may_ack = known.view.may_ack().unwrap_or(false);
        if may_ack && known.let_go().is_ok() {
            known.acked = known.acked.max(generation);
            self.member.ack(shard, generation);
        }
        may_ack
    }

    /// Drops the body of a shard that belongs to another server.
    async fn drop_body(&self, shard: u16, place: &Place<S::Body>, generation: u64) {
        let mut body = place.body().await;
        let mut incoming = place.incoming();
        let mut known = place.known();
        if known.record().generation != generation {
            return;
        }
        (known.body_is_of, known.copy, known.spelled) = (None, None, None);
        let (fence, dropped, came) = (known.fence(), body.take(), incoming.take());
        drop((known, incoming, body));
        drop(came);
        if let Some(dropped) = dropped {
            self.service.dropped(Shard::new(shard, fence), dropped);
        }
    }

    /// Waits a little until this process has read the record of this generation, if it hasn't yet.
    pub(crate) async fn await_record(&self, place: &Place<S::Body>, generation: u64) {
        let end = self.environment.end_of(READ);
        let is_read = || place.known().record().generation >= generation;
        while !is_read() && !self.environment.is_past(end) {
            self.environment.wait(LOOK, end).await;
        }
    }
}

/// Returns the result of the work. Returns nothing if the work panics.
async fn unless_panicked<T>(work: impl Future<Output = T>) -> Option<T> {
    let mut work = pin!(work);
    poll_fn(|context| {
        let polled = catch_unwind(AssertUnwindSafe(|| work.as_mut().poll(context)));
        polled.map_or(Poll::Ready(None), |it| it.map(Some))
    })
    .await
}
