//! Tells this process's views of shards the news: that its lease was kept, which records it reads, and which owners
//! have let go.
use crate::fleet_inner::{nanoseconds, FleetInner};
use crate::place::Basis;
use crate::Service;
use durkenzo_driver::{KeptLease, ShardSnapshot};
use durkenzo_store_sys::ShardView;
use std::sync::atomic::Ordering;

/// The number of shards that are read at once.
const GROUP: usize = 32;

impl<S: Service> FleetInner<S> {
    /// Returns the time until which this process may rely on the lease, by its own clock.
    fn until(&self, kept: &KeptLease) -> u64 {
        nanoseconds(self.by_clock(kept.asked) + self.options.allowed(kept.length))
    }

    /// Tells the views that the lease was kept. A view of an earlier lease ends with that lease. If the store says that
    /// the lease has ended, ends all views.
    pub(crate) fn keep(&self) {
        let kept = self.member.kept_lease();
        let until = kept.as_ref().map_or(0, |it| self.until(it));
        match kept {
            Some(kept) => self.keep_views(&kept, until),
            None => self.end_views(),
        }
        // The views must hear first, because the reader of the message may hang.
        self.tell_of_lease(until);
    }

    /// Tells the views that this lease was kept until then.
    fn keep_views(&self, kept: &KeptLease, until: u64) {
        for place in &self.places {
            let mut known = place.known();
            if known.view.joined() == kept.joined.0 && !self.is_stopping() {
                if let Ok(view) = known.view.kept(until) {
                    known.view = view;
                }
            }
        }
    }

    /// Tells the operator when this process is no longer sure of its lease, and when it is sure again. The process
    /// relies on the lease until this time.
    fn tell_of_lease(&self, until: u64) {
        let is_sure = self.now() < until;
        if self.is_sure.swap(is_sure, Ordering::Relaxed) != is_sure {
            let what = match is_sure {
                true => "is sure of its lease",
                false => "isn't sure of its lease, so calls wait: does etcd answer?",
            };
            let server = self.server();
            self.environment.tell(&format!("server {server} {what}"));
        }
    }

    /// Reads the records that have changed, and tells the views.
    pub(crate) fn follow(&self) {
        let Some(kept) = self.member.kept_lease() else {
            return;
        };
        let due: Vec<_> = (0..self.places.len() as u16)
            .filter_map(|shard| self.due(shard, &kept))
            .collect();
        for group in due.chunks(GROUP) {
            let asked: Vec<_> = group.iter().map(|it| (it.0, it.1)).collect();
            let read = ShardSnapshot::read(&**self.durable.store(), self.server(), &asked);
            let read = match read {
                Ok(read) => read,
                Err(error) => return tracing::warn!(%error, "shards aren't read for now"),
            };
            for (shard, reading) in read {
                let basis = group.iter().find(|it| it.0 == shard).map(|it| it.2);
                if let Some(basis) = basis {
                    self.take(shard, &reading, (&kept, basis));
                }
            }
        }
        (0..self.places.len() as u16).for_each(|it| self.see_ack(it));
    }

    /// Returns the shard, its owner, and the facts that are seen of both, if these facts have changed since the last
    /// reading.
    fn due(&self, shard: u16, kept: &KeptLease) -> Option<(u16, Option<u16>, Basis)> {
        let stored = self.durable.standing(shard)?;
        let owner = stored.record().and_then(|it| it.owner());
        let basis = Basis {
            stood: stored.revision(),
            ownership: self.durable.ownership(shard)?,
            joined: kept.joined,
            is_away: self.durable.is_away(self.server()),
            owner_joined: owner.and_then(|it| self.member.members().joined_of(it)),
            owner_is_away: owner.is_some_and(|it| self.durable.is_away(it)),
        };
        let is_due = self.places[usize::from(shard)].known().basis != Some(basis);
        is_due.then_some((shard, owner, basis))
    }

    /// Takes this reading into the view of the shard, under this lease.
    fn take(&self, shard: u16, reading: &ShardSnapshot, (kept, basis): (&KeptLease, Basis)) {
        let place = &self.places[usize::from(shard)];
        let mut known = place.known();
        let owner = reading.stored.record().and_then(|it| it.owner());
        if known.waits_to_see((owner, reading.stored.revision()), &basis) {
            return;
        }
        if known.view.joined() != kept.joined.0 {
            match ShardView::new(self.server(), kept.joined.0, self.until(kept)) {
                Ok(view) if !self.is_stopping() => {
                    (known.view, known.tenure) = (view, kept.since.0)
                }
                _ => return,
            }
        }
        if let Err(error) = known.take(reading, basis) {
            return tracing::warn!(shard, %error, "no record has what lies at the shard's key");
        }
        drop(known);
        place.queue.wake();
    }

    /// Tells the view of the shard that the owner that forwards to this process has let go, if an ack of the owner was
    /// seen.
    fn see_ack(&self, shard: u16) {
        let place = &self.places[usize::from(shard)];
        let mut known = place.known();
        let durkenzo::Stand::Forwarding { owner, next } = known.record().stand else {
            return;
        };
        if next != self.server() || known.view.is_freed() {
            return;
        }
        if let Some(generation) = self.member.acked(shard, owner) {
            if let Ok(view) = known.view.acked(owner, generation) {
                known.view = view;
            }
        }
    }

    /// Hands out the shards for which a record asks for work. `give` tells whether a shard is taken.
    pub(crate) fn hand_out(&self, mut give: impl FnMut(u16) -> bool) {
        for (shard, place) in self.places.iter().enumerate() {
            let mut known = place.known();
            let wanted = Some(known.to_settle());
            if known.basis.is_some() && !known.settles && known.settled != wanted {
                // `give` fails only when the fleet ends.
                known.settles = give(shard as u16);
            }
        }
    }
}
