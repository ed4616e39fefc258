//! Servers of a store that others share. Only `member_threads` has a thread and waits. Everything else is told the
//! time, so that it can be simulated.
mod joining_member;
mod key_write;
mod member_inner;
// This module waits, and has the thread.
#[allow(clippy::disallowed_methods)]
mod member_threads;
mod notifier;
mod own_key;
mod pending_write;
mod seen_keys;
mod tenure;
#[cfg(test)]
#[allow(clippy::disallowed_methods)]
mod tests;

pub use joining_member::{JoinStep, JoiningMember};

use crate::lease_clock::{LeaseClock, Moment};
use crate::lowest::Lowest;
use crate::{keys, process, Addresses, Clock, JoinFault, KeptLease, Members};
use durkenzo_store::{LeaseId, Revision, Store, Transaction, Watch};
use member_inner::MemberInner;
use notifier::Notifier;
use own_key::OwnKey;
use std::fmt;
use std::sync::atomic::{AtomicBool, Ordering};
use std::sync::{Arc, Mutex, PoisonError};
use std::time::Duration;
use tenure::Tenure;

/// A lease is kept so many times in its length.
const PARTS: u32 = 3;
/// The pause before a server's key is written again after a failed write.
const PAUSE: Duration = Duration::from_millis(50);
/// The pause if another process has the server's name.
const TAKEN_PAUSE: Duration = Duration::from_secs(1);
/// How long the server's revision isn't told if nothing waits for it, because everybody sees each telling.
const LAG: Duration = Duration::from_millis(500);
/// How long a server waits until it tells its revision again, for each server that is there.
const TELLING: Duration = Duration::from_millis(2);
/// After so many other processes have begun, a process takes another number. Its shards keep the last requests of all
/// processes since the first number by which any process still has requests.
const BEGUN: u64 = 8;

/// A server of a store that others share, as its key tells them. It is there as long as its lease is kept.
///
/// If the lease has ended, because the process was stopped or couldn't reach the store for so long, it takes another
/// one.
pub struct Member {
    inner: Arc<MemberInner>,
    watches: Mutex<Vec<Watch>>,
    /// Whether no request reached the server when the process began.
    was_away: bool,
}

impl Member {
    /// Makes this server join, under a lease of that length. `on_change` is called when a server's key, or the
    /// leader's, has changed.
    ///
    /// If there is a key of this server already, it waits until that key is gone: for the length of a lease, and a
    /// little longer.
    ///
    /// # Errors
    ///
    /// As [`JoinFault`] says. One case is that the server runs already.
    pub fn join(
        store: Arc<dyn Store>,
        server: u16,
        addresses: Addresses,
        lease: Duration,
        on_change: Box<dyn Fn() + Send + Sync>,
    ) -> Result<Member, JoinFault> {
        let clocks = (Clock::default(), LeaseClock::default());
        Member::join_by(clocks, store, server, addresses, lease, on_change)
    }

    /// Joins as [`Member::join`] does, with these clocks.
    fn join_by(
        clocks: (Clock, LeaseClock),
        store: Arc<dyn Store>,
        server: u16,
        addresses: Addresses,
        lease: Duration,
        on_change: Box<dyn Fn() + Send + Sync>,
    ) -> Result<Member, JoinFault> {
        let joining = Member::begin(clocks, store, server, addresses, lease, on_change)?;
        let member = joining.wait()?;
        member_threads::begin(&member.inner)?;
        Ok(member)
    }

    /// Begins to join as [`Member::join`] does, but starts no thread and doesn't wait. The caller must call
    /// [`JoiningMember::turn`], and then [`Member::turn`], when work is due. `clock` tells when that is, and `passed`
    /// is the clock of the lease: the time since some beginning. Such a server can be simulated, and dropping it is a
    /// crash.
    ///
    /// # Errors
    ///
    /// If the store can't be asked for the number of a process, or for a lease.
    pub fn join_without_thread(
        store: Arc<dyn Store>,
        server: u16,
        addresses: Addresses,
        lease: Duration,
        clock: Clock,
        passed: impl Fn() -> Duration + Send + Sync + 'static,
    ) -> Result<JoiningMember, JoinFault> {
        let clocks = (clock, LeaseClock::by(passed));
        Member::begin(clocks, store, server, addresses, lease, Box::new(|| {}))
    }

    fn begin(
        (clock, lease_clock): (Clock, LeaseClock),
        store: Arc<dyn Store>,
        server: u16,
        addresses: Addresses,
        lease: Duration,
        on_change: Box<dyn Fn() + Send + Sync>,
    ) -> Result<JoiningMember, JoinFault> {
        let process = process::begin(&*store)?;
        JoiningMember::new(MemberInner {
            store,
            server,
            process,
            addresses,
            length: lease.max(Duration::from_secs(1)),
            state: Mutex::new(OwnKey::new(lease_clock.now(), clock.now())),
            clock,
            lease_clock,
            notifier: Arc::new(Notifier::default()),
            seen: Mutex::default(),
            is_replaced: AtomicBool::new(false),
            on_change,
        })
    }

    /// Does the work that is due, for a server without a thread. It keeps the lease three times in its length, or takes
    /// another one if it has ended, and writes the server's key if that has more to tell. Returns for how long nothing
    /// is due then, if nothing is told to the server meanwhile. Returns nothing once the server has left.
    pub fn turn(&self) -> Option<Duration> {
        self.inner.turn()
    }

    /// Keeps the lease now, or takes another one if it has ended. The server's key is then written soon.
    pub fn keep_lease(&self) {
        self.inner.keep_lease();
        self.inner.notifier.notify();
    }

    /// Returns whether no request reached the server when this process began, because it was stopped or had failed.
    pub fn was_away(&self) -> bool {
        self.was_away
    }

    /// Returns the server.
    pub fn server(&self) -> u16 {
        self.inner.server
    }

    /// Returns this process's number: how many processes had begun over the store, including this one.
    pub fn process(&self) -> u64 {
        self.inner.process
    }

    /// Returns the servers that are there, as they were last seen.
    pub fn members(&self) -> Arc<Members> {
        self.inner.seen().members.clone()
    }

    /// Returns how many changes of servers' keys were seen.
    pub(crate) fn changes(&self) -> u64 {
        self.inner.seen().changes
    }

    /// Returns up to which revision each server follows whose key is there. All are of one moment, as the watch told
    /// them last. Returns nothing if the watch hasn't yet told that this server is there.
    pub(crate) fn followers(&self) -> Option<Vec<(u16, Revision)>> {
        let seen = self.inner.seen();
        let is_there = seen.followed.contains_key(&self.inner.server);
        let all = seen.followed.iter().map(|it| (*it.0, *it.1));
        is_there.then(|| all.collect())
    }

    /// Returns the process that leads, as it was last seen; nothing if none does.
    pub fn leader(&self) -> Option<u64> {
        self.inner.seen().leader.map(|it| it.0)
    }

    /// Returns whether this process, which was elected at that revision, still leads by that election or by a later
    /// one, as far as was seen.
    pub(crate) fn leads(&self, elected: Revision) -> bool {
        let (seen, own) = (self.inner.seen(), self.inner.process);
        let leader = seen.leader.filter(|it| it.0 == own);
        seen.led < elected || leader.is_some_and(|it| it.1 >= elected)
    }

    /// Leaves: others see at once that this server isn't there any more. If the lease can't be ended now, it ends by
    /// itself.
    pub fn leave(&self) {
        let lease = {
            // This is done at once. Otherwise the thread would find a lease, and end it a little later.
            let mut state = self.inner.state();
            state.is_over = true;
            state.lease.take()
        };
        self.inner.notifier.notify();
        self.inner.revoke(lease);
    }

    /// Returns the lease, if the server's key lies under it. Everything that is written under it is gone when this
    /// process is.
    pub fn lease(&self) -> Option<LeaseId> {
        let state = self.inner.state();
        state.lease.filter(|_| state.written > Revision::NEVER)
    }

    /// Returns how much time has passed by the clock that judges the lease, since some beginning. That clock goes on
    /// while the machine is suspended.
    pub fn time(&self) -> Duration {
        self.now().since_beginning()
    }

    /// Makes this process tell, under each of its leases, that it executes, before [`Member::kept_lease`] returns that
    /// lease. So it learns whether another process of its server has executed between two of its leases.
    pub fn have_tenure(&self) {
        let tenure = Tenure::new(self.inner.process, self.inner.clock.now());
        self.inner.state().tenure.get_or_insert(tenure);
        self.inner.notifier.notify();
    }

    /// Returns the lease of this process as it was last kept. Returns nothing while the server's key isn't known to lie
    /// under it, or if it isn't told yet that this process executes.
    pub fn kept_lease(&self) -> Option<KeptLease> {
        let state = self.inner.state();
        let is_there = state.lease.is_some() && state.joined > Revision::NEVER && !state.is_over;
        let since = match &state.tenure {
            Some(tenure) => tenure.since(state.joined),
            None => Some(state.joined),
        };
        since.filter(|_| is_there).map(|since| KeptLease {
            joined: state.joined,
            since,
            asked: state.kept.since_beginning(),
            length: self.inner.length,
        })
    }

    /// Returns how much time is left of this process's lease, by the clock that judges it and as the lease was last
    /// kept. Returns nothing if no time is left, or if the server's key isn't known to lie under it.
    pub fn lease_left(&self) -> Option<Duration> {
        let state = self.inner.state();
        let is_there = state.lease.is_some() && state.written > Revision::NEVER && !state.is_over;
        let passed = self.now().since(state.kept);
        let left = self.inner.length.checked_sub(passed);
        left.filter(|it| is_there && !it.is_zero())
    }

    /// Returns the revision at which this process joined: the one that created its key under its lease. It is
    /// [`Revision::NEVER`] while the key isn't known to be there.
    ///
    /// An earlier process with the server's name joined at another revision. So a service that hands something over can
    /// say by which process.
    pub fn joined(&self) -> Revision {
        self.inner.state().joined
    }

    /// Acks the shard's records up to this generation: this process executes by none of them any more, or is prepared
    /// for the latest. The ack is told as soon as the store takes it, and again under each later lease of this process.
    ///
    /// The caller must have read the record of that generation, and must not execute by it or by an earlier one.
    pub fn ack(&self, shard: u16, generation: u64) {
        let mut state = self.inner.state();
        if state.acks.get(&shard).is_none_or(|it| *it < generation) {
            state.acks.insert(shard, generation);
            state.untold.insert(shard);
            state.be_due(self.inner.clock.now());
            self.inner.notifier.notify();
        }
    }

    /// Returns the generation up to which the server was seen to ack the shard's records, if its ack is there.
    pub fn acked(&self, shard: u16, server: u16) -> Option<u64> {
        self.inner.seen().acks.get(&(shard, server)).copied()
    }

    /// Returns whether another process has the server's name, as far as it was seen.
    pub(crate) fn is_replaced(&self) -> bool {
        self.inner.is_replaced.load(Ordering::Acquire)
    }

    /// Returns this moment, by the clock that judges the lease.
    pub(crate) fn now(&self) -> Moment {
        self.inner.lease_clock.now()
    }

    /// Returns whether the server's key is there by the lease's clock, and less than a lease's length has passed since
    /// that moment.
    pub(crate) fn is_kept_since(&self, since: Moment) -> bool {
        self.lease_left().is_some() && self.now().since(since) < self.inner.length
    }

    /// Returns the first number of a process whose clients must not be forgotten, because its server is there.
    pub(crate) fn lowest(&self) -> u64 {
        self.inner.seen().lowest
    }

    /// Returns the first number by which this process still has requests, as its key was seen to tell it.
    pub(crate) fn own_lowest(&self) -> u64 {
        let inner = &self.inner;
        inner.seen().lowest_of(inner.server, inner.process)
    }

    /// Returns how many processes' last requests shards may keep: those that were seen to begin since the first number
    /// by which a process that is there still has requests.
    pub fn processes_kept(&self) -> u64 {
        let seen = self.inner.seen();
        seen.newest.saturating_sub(seen.lowest) + 1
    }

    /// Returns whether so many others have begun since this process took its number that it must take another one, so
    /// that their last requests can be forgotten.
    pub(crate) fn is_old(&self, number: u64) -> bool {
        self.inner.seen().newest > number + BEGUN
    }

    /// Tells others that this process has no more requests by numbers earlier than this one. [`Member::own_lowest`]
    /// shows whether it was told.
    pub(crate) fn tell_lowest(&self, number: u64) {
        let process = self.inner.process;
        let bytes = Lowest { process, number }.bytes();
        let transaction = Transaction::new().put(keys::lowest(self.inner.server), bytes);
        self.inner.store.submit(transaction, Box::new(|_| {}));
    }

    /// Tells others that this process has read all records up to this revision. It does so soon, or at once if the
    /// leader waits for one of them. If many shards move, one telling stands for several: all servers together tell it
    /// some hundred times a second, because everybody sees each telling.
    pub(crate) fn follow(&self, revision: Revision, is_awaited: bool) {
        let servers = self.inner.seen().members.len() as u32;
        let mut state = self.inner.state();
        if revision > state.followed {
            let now = self.inner.clock.now();
            let latest = match is_awaited {
                true => now.max(state.wrote + servers * TELLING),
                false => now + LAG,
            };
            state.followed = revision;
            state.be_due(latest);
            self.inner.notifier.notify();
        }
    }
}

impl Drop for Member {
    fn drop(&mut self) {
        self.watches
            .get_mut()
            .unwrap_or_else(PoisonError::into_inner)
            .clear();
        // The thread isn't joined, because the store's own thread may be the last to hold this value. The lease ends
        // with the thread.
        self.inner.end();
    }
}

impl fmt::Debug for Member {
    fn fmt(&self, f: &mut fmt::Formatter<'_>) -> fmt::Result {
        f.debug_struct("Member")
            .field("server", &self.inner.server)
            .field("process", &self.inner.process)
            .finish_non_exhaustive()
    }
}
