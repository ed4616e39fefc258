use super::key_write::{KeyWrite, Taken};
use super::notifier::Notifier;
use super::own_key::OwnKey;
use super::pending_write::PendingWrite;
use super::seen_keys::SeenKeys;
use super::{PARTS, PAUSE, TAKEN_PAUSE};
use crate::lease_clock::LeaseClock;
use crate::{keys, Addresses, Clock, JoinFault, Live};
use durkenzo_store::{LeaseError, LeaseId, Revision, Seen, Store, Watch, WriteError};
use std::sync::atomic::{AtomicBool, Ordering};
use std::sync::{Arc, Mutex, MutexGuard, PoisonError, Weak};
use std::time::Duration;

/// A server, its lease, and its view of the others.
pub(super) struct MemberInner {
    pub(super) store: Arc<dyn Store>,
    pub(super) server: u16,
    pub(super) process: u64,
    pub(super) addresses: Addresses,
    pub(super) length: Duration,
    /// Tells the time by which work becomes due.
    pub(super) clock: Clock,
    pub(super) lease_clock: LeaseClock,
    pub(super) state: Mutex<OwnKey>,
    /// Notified if there is something to write, or at the end.
    pub(super) notifier: Arc<Notifier>,
    pub(super) seen: Mutex<SeenKeys>,
    /// Whether another process was seen to have the server's name.
    pub(super) is_replaced: AtomicBool,
    pub(super) on_change: Box<dyn Fn() + Send + Sync>,
}

impl MemberInner {
    pub(super) fn state(&self) -> MutexGuard<'_, OwnKey> {
        self.state.lock().unwrap_or_else(PoisonError::into_inner)
    }

    pub(super) fn seen(&self) -> MutexGuard<'_, SeenKeys> {
        self.seen.lock().unwrap_or_else(PoisonError::into_inner)
    }

    /// Returns how long after a lease was kept it is kept again.
    pub(super) fn keeping(&self) -> Duration {
        self.length / PARTS
    }

    /// Returns whether no request reaches the server.
    pub(super) fn is_away(&self) -> Result<bool, JoinFault> {
        let state = self.store.read(&[&keys::state(self.server)])?;
        Ok(state.pairs.iter().any(|it| !keys::is_reached(&it.value)))
    }

    pub(super) fn live(&self, followed: Revision) -> Live {
        Live {
            process: self.process,
            followed,
            joined: Revision::NEVER,
            addresses: self.addresses.clone(),
        }
    }

    /// Makes its thread end.
    pub(super) fn end(&self) {
        self.state().is_over = true;
        self.notifier.notify();
    }

    /// Ends the lease, if there is one.
    pub(super) fn end_lease(&self) {
        let lease = self.state().lease.take();
        self.revoke(lease);
    }

    /// Ends this lease. If it can't be ended now, it ends by itself.
    pub(super) fn revoke(&self, lease: Option<LeaseId>) {
        let _ = lease.map(|it| self.store.revoke(it));
    }

    /// Does the work that is due: keeps the lease, or takes another one, and writes the key if it has more to tell.
    /// Returns for how long nothing is due then, unless it is notified. Returns nothing at the end, which is also the
    /// end of the lease.
    pub(super) fn turn(&self) -> Option<Duration> {
        self.hear_of_write();
        let by_lease = self.lease_clock.now();
        let state = self.state();
        let (is_over, keeps) = (state.is_over, by_lease >= state.keep_due);
        drop(state);
        if is_over {
            self.end_lease();
            return None;
        }
        if keeps {
            self.keep_lease();
        }
        // This process executes nothing until its tenure is written, and there may be many acks to write.
        while self.write_tenure() {}
        if self.write() {
            // Some stores have made it already.
            self.hear_of_write();
            while self.write_tenure() {}
        }
        let (now, by_lease) = (self.clock.now(), self.lease_clock.now());
        Some(self.state().next_turn(now, by_lease))
    }

    /// Keeps the lease, or takes another one if there is none any more.
    pub(super) fn keep_lease(&self) {
        let (began, lease) = (self.lease_clock.now(), self.state().lease);
        let is_there = self.has_renewed(lease);
        self.state().keep_due = match is_there {
            true => began.after(self.keeping()),
            false => self.lease_clock.now().after(PAUSE),
        };
    }

    /// Keeps this lease, or takes another one. Returns whether there is one now.
    fn has_renewed(&self, lease: Option<LeaseId>) -> bool {
        let mut kept = self.lease_clock.now();
        if let Some(lease) = lease {
            match self.store.keep(lease) {
                Err(LeaseError::Ended(_)) => {}
                Ok(()) => {
                    self.state().kept = kept;
                    return true;
                }
                // The next attempt finds out whether it goes on.
                Err(LeaseError::Unavailable(_) | LeaseError::Stopped) => return true,
            }
        }
        kept = self.lease_clock.now();
        let granted = self.store.grant(self.length).ok();
        self.state().have_lease(granted, kept, self.clock.now());
        granted.is_some()
    }

    /// Writes the key if it has more to tell. Returns whether the write is on its way.
    fn write(&self) -> bool {
        let now = self.clock.now();
        let mut state = self.state();
        let Some(lease) = state.lease.filter(|_| state.is_due(now) && !state.is_over) else {
            return false;
        };
        state.due = None;
        if state.is_told() {
            return false;
        }
        state.wrote = now;
        let write = KeyWrite {
            server: self.server,
            live: self.live(state.followed),
            acks: state.acks_due(),
            before: state.written,
            created: state.joined,
        };
        // If a store that hangs makes it late, the next write finds that.
        let (transaction, end) = (write.transaction(lease), now + self.keeping());
        let (pending, done) = PendingWrite::new(write, end, &self.notifier);
        state.pending = Some(pending);
        drop(state);
        self.store.submit(transaction, done);
        true
    }

    /// Writes that this process executes, if that is due. Returns whether its outcome is known already.
    fn write_tenure(&self) -> bool {
        let now = self.clock.now();
        let mut state = self.state();
        if let Some(tenure) = &mut state.tenure {
            tenure.hear(self.server, now);
        }
        let (written, joined) = (state.written, state.joined);
        let is_due = !state.is_over && state.tenure_due_at().is_some_and(|it| it <= now);
        let Some(tenure) = state.tenure.as_mut().filter(|_| is_due) else {
            return false;
        };
        let transaction = tenure.transaction(self.server, written);
        let (pending, done) = PendingWrite::new(joined, now + self.keeping(), &self.notifier);
        tenure.wait_for(pending);
        drop(state);
        self.store.submit(transaction, done);
        let mut state = self.state();
        let now = self.clock.now();
        if let Some(tenure) = &mut state.tenure {
            tenure.hear(self.server, now);
        }
        state
            .tenure
            .as_ref()
            .is_some_and(|it| it.patience().is_none())
    }

    /// Notes the outcome of the write that was on its way, if it is known.
    fn hear_of_write(&self) {
        let (now, mut state) = (self.clock.now(), self.state());
        let told = state.pending.as_ref().and_then(|it| it.outcome(now));
        let Some(outcome) = told else {
            return;
        };
        let Some(PendingWrite { write, .. }) = state.pending.take() else {
            return;
        };
        match write.judged(outcome) {
            Ok(Ok(lying)) => {
                (state.written, state.joined) = (lying.revision, lying.created);
                state.told = write.live.followed;
                state.have_told(&write.acks, now);
            }
            Err(WriteError::LeaseEnded) => state.lose_lease(now, self.lease_clock.now()),
            // The key went with the lease, so it is written again. Or an earlier write had an unknown outcome: then it
            // goes on from the key's present state.
            Ok(Err(Taken { own: Some(it), .. })) => {
                (state.written, state.joined) = (it.revision, it.created);
                state.pause(now, PAUSE);
            }
            Ok(Err(Taken { own: None, .. })) => {
                state.lie_nowhere();
                state.pause(now, TAKEN_PAUSE);
            }
            Err(
                WriteError::Unknown(_)
                | WriteError::Unreachable(_)
                | WriteError::Unavailable(_)
                | WriteError::Full(_)
                | WriteError::TooLarge(_)
                | WriteError::Damaged(_)
                | WriteError::Denied(_)
                | WriteError::Stopped,
            ) => state.pause(now, PAUSE),
        }
    }

    pub(super) fn watch(
        self: &Arc<MemberInner>,
        prefix: &'static [u8],
    ) -> Result<Watch, JoinFault> {
        let seeing: Weak<MemberInner> = Arc::downgrade(self);
        let watcher = move |seen| {
            if let Some(inner) = seeing.upgrade() {
                inner.see(prefix, seen);
            }
        };
        Ok(self.store.watch(prefix, Box::new(watcher))?)
    }

    /// Processes the changes that the watch has seen at keys with this prefix.
    fn see(&self, prefix: &[u8], seen: Seen) {
        let mut keys = self.seen();
        match seen {
            Seen::All(reading) => keys.note_all(prefix, &reading),
            Seen::Changes(_, changes) => {
                for it in changes {
                    keys.note(&it.key, it.value.as_deref(), it.revision, it.created);
                }
            }
        }
        keys.changes += 1;
        // If none was seen yet, some may be there.
        if !keys.members.is_empty() {
            keys.lowest = keys.lowest_with(self.server, self.process);
        }
        let own = keys.members.get(&self.server);
        let is_replaced = own.is_some_and(|it| it.process != self.process);
        self.is_replaced.store(is_replaced, Ordering::Release);
        drop(keys);
        (self.on_change)();
    }
}
