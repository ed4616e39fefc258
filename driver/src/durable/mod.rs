//! The shards of a store. Only `durable_threads` has threads and waits. Everything else is told the time, so that it
//! can be simulated.
mod base_writes;
mod durable_inner;
// This module waits, and has the threads.
#[allow(clippy::disallowed_methods)]
mod durable_threads;
mod reader_job;
mod readings;
mod shard_options;
mod unread_shards;
mod watches;

pub(crate) use durable_inner::DurableInner;
pub(crate) use reader_job::{ReadBack, ReaderJob};
pub use shard_options::{Reads, ShardOptions};

use crate::clock::Clock;
use crate::load_meter::LoadMeter;
use crate::shard::Shard;
use crate::shard_service::{Machines, ShardService, Texts};
use crate::stored_record::takes_part;
use crate::{
    process, Came, Chores, CompactFault, Elsewhere, Machine, Member, NotDone, OpenFault, Own,
    Ownership, StoredRecord, WorkStep,
};
use durable_inner::locked;
use durable_threads::{threads, wait_for};
use durkenzo_store::{Outcome, Revision, Store, Transaction, Watch, WriteError};
use std::fmt;
use std::sync::atomic::{AtomicBool, AtomicU64, AtomicUsize, Ordering};
use std::sync::mpsc::{self, Receiver};
use std::sync::{Arc, Mutex, OnceLock, PoisonError};
use std::thread::JoinHandle;
use std::time::{Duration, Instant};
use unread_shards::UnreadShards;
use watches::watches;

/// How long a stop waits for transactions under way.
const STOP: Duration = Duration::from_secs(10);

/// The shards of a store, with all their servers in this process, or with one of them.
///
/// A caller that submits work isn't kept waiting, and no lock is held during a wait for the store: a shard that waits
/// stops only its own work.
pub struct Durable {
    inner: Arc<DurableInner>,
    threads: Vec<JoinHandle<()>>,
    /// The watches end with this value.
    watches: Mutex<Vec<Watch>>,
}

impl Durable {
    /// Opens so many shards of this store, with all their servers in this process. `on_change` is called when a record
    /// has changed, and when the store has ended.
    ///
    /// # Errors
    ///
    /// If the store can't be read or written.
    pub fn open(
        store: Arc<dyn Store>,
        shards: u16,
        shard_options: ShardOptions,
        on_change: Box<dyn Fn() + Send + Sync>,
    ) -> Result<Durable, OpenFault> {
        let process = process::begin(&*store)?;
        let served = (store, Arc::new(Texts) as Arc<_>);
        Durable::begin(served, shards, shard_options, (process, None), on_change)
    }

    /// Opens the shards of this store. This process has one server of them, and other processes have the others.
    /// Otherwise it is as if it had all.
    ///
    /// # Errors
    ///
    /// If the store can't be read or written.
    pub fn open_one(
        store: Arc<dyn Store>,
        shards: u16,
        shard_options: ShardOptions,
        own: Own,
        on_change: Box<dyn Fn() + Send + Sync>,
    ) -> Result<Durable, OpenFault> {
        let process = own.member.process();
        Durable::begin(
            (store, Arc::new(Texts)),
            shards,
            shard_options,
            (process, Some(own)),
            on_change,
        )
    }

    /// Opens the shards of this store for a user's own service: each shard is such a [`Machine`], and its steps are
    /// [`Begin::Opaque`](crate::Begin::Opaque). If this process has only one server of them, `own` is that server, as
    /// in [`Durable::open_one`].
    ///
    /// # Errors
    ///
    /// If the store can't be read or written.
    pub fn open_machines<M: Machine>(
        store: Arc<dyn Store>,
        shards: u16,
        shard_options: ShardOptions,
        own: Option<Own>,
        on_change: Box<dyn Fn() + Send + Sync>,
    ) -> Result<Durable, OpenFault> {
        let process = match &own {
            Some(own) => own.member.process(),
            None => process::begin(&*store)?,
        };
        let served = (store, Arc::new(Machines::<M>::default()) as Arc<_>);
        Durable::begin(served, shards, shard_options, (process, own), on_change)
    }

    fn begin(
        served: (Arc<dyn Store>, Arc<dyn ShardService>),
        shards: u16,
        shard_options: ShardOptions,
        own: (u64, Option<Own>),
        on_change: Box<dyn Fn() + Send + Sync>,
    ) -> Result<Durable, OpenFault> {
        let clock = Clock::default();
        let (mut durable, handed) =
            Durable::idle(served, shards, shard_options, own, (clock, on_change))?;
        durable.threads = threads(&durable.inner, handed)?;
        Ok(durable)
    }

    /// Opens the shards of a process as [`Durable::open_one`] does, but starts no thread. The caller must do the
    /// threads' work, with the [`Chores`], and the clock must tell the time. Such a process can be simulated, because
    /// it does nothing by itself. [`Durable::change`] doesn't wait for transactions under way, and dropping the process
    /// is a crash.
    ///
    /// # Errors
    ///
    /// If the store can't be read.
    pub fn open_without_threads(
        store: Arc<dyn Store>,
        shards: u16,
        shard_options: ShardOptions,
        own: Own,
        clock: Clock,
    ) -> Result<(Durable, Chores), OpenFault> {
        let own = (own.member.process(), Some(own));
        Durable::with_chores(store, shards, shard_options, own, clock)
    }

    /// Opens the shards of a process as [`Durable::open`] does, with all their servers, but starts no thread.
    /// Everything else is as with [`Durable::open_without_threads`].
    ///
    /// # Errors
    ///
    /// If the store can't be read or written.
    pub fn open_all_without_threads(
        store: Arc<dyn Store>,
        shards: u16,
        shard_options: ShardOptions,
        clock: Clock,
    ) -> Result<(Durable, Chores), OpenFault> {
        let process = process::begin(&*store)?;
        Durable::with_chores(store, shards, shard_options, (process, None), clock)
    }

    fn with_chores(
        store: Arc<dyn Store>,
        shards: u16,
        shard_options: ShardOptions,
        own: (u64, Option<Own>),
        clock: Clock,
    ) -> Result<(Durable, Chores), OpenFault> {
        let by = (clock, Box::new(|| {}) as Box<_>);
        let served = (store, Arc::new(Texts) as Arc<_>);
        let (durable, handed) = Durable::idle(served, shards, shard_options, own, by)?;
        let chores = Chores::new(durable.inner.clone(), handed);
        Ok((durable, chores))
    }

    /// Returns the shards, without threads yet, and the queue of the threads' readings.
    fn idle(
        (store, service): (Arc<dyn Store>, Arc<dyn ShardService>),
        shards: u16,
        shard_options: ShardOptions,
        (process, own): (u64, Option<Own>),
        (clock, on_change): (Clock, Box<dyn Fn() + Send + Sync>),
    ) -> Result<(Durable, Receiver<ReaderJob>), OpenFault> {
        let (jobs, handed) = mpsc::channel();
        let member = own.as_ref().map(|it| it.member.clone());
        let each = |it| {
            let shard = Shard::new(it, process, member.clone(), shard_options);
            Mutex::new(shard)
        };
        let keeps_room = store.left().is_some();
        let inner = Arc::new(DurableInner {
            store,
            service,
            clock,
            shards: (0..shards).map(each).collect(),
            stirred: (0..shards).map(|_| AtomicBool::new(true)).collect(),
            unread: UnreadShards::new(shards),
            process,
            number: AtomicU64::new(process),
            is_numbering: AtomicBool::new(false),
            own,
            shard_options,
            jobs: Mutex::new(Some(jobs)),
            away: Mutex::default(),
            under_way: AtomicUsize::new(0),
            keeps_room,
            is_full: AtomicBool::new(false),
            basing: AtomicU64::new(0),
            is_stopping: AtomicBool::new(false),
            meter: Arc::new(LoadMeter::new(shards)),
            ended: OnceLock::new(),
            on_change,
        });
        let watches = Mutex::new(watches(&inner)?);
        let threads = Vec::new();
        Ok((
            Durable {
                inner,
                threads,
                watches,
            },
            handed,
        ))
    }

    /// Returns this process's number: how many processes had begun on this store, including this one.
    pub fn process(&self) -> u64 {
        self.inner.process
    }

    /// Returns the server of this process, if it has one.
    pub fn member(&self) -> Option<&Arc<Member>> {
        self.inner.own.as_ref().map(|it| &it.member)
    }

    /// Returns the store.
    pub fn store(&self) -> &Arc<dyn Store> {
        &self.inner.store
    }

    /// Returns the clock of the process.
    pub fn clock(&self) -> &Clock {
        &self.inner.clock
    }

    /// Returns the number of shards.
    pub fn shards(&self) -> u16 {
        // They were counted with this type.
        self.inner.shards.len() as u16
    }

    /// Makes the shard do these steps of one client, in their order. If another process's server gets some of them
    /// while the outcome of an earlier one isn't known, that one may be made after them. If there is no such shard,
    /// nothing is done.
    pub fn submit(&self, shard: u16, steps: Vec<WorkStep>) {
        let Some(steps) = self.taken(steps) else {
            return;
        };
        self.inner.with(shard, |it, actions| {
            it.take(steps, self.inner.now(), actions)
        });
    }

    /// Makes the shard do work that another process forwarded, and that has waited there since then. The work waits
    /// until the record at its revision was seen. If this process's server doesn't execute the shard, the work ends
    /// with [`NotDone::Moved`].
    pub fn submit_from(&self, shard: u16, steps: Vec<WorkStep>, came: Came, since: Instant) {
        let Some(steps) = self.taken(steps) else {
            return;
        };
        self.inner.with(shard, |it, actions| {
            it.take_from(steps, came, since, self.inner.now(), actions);
        });
    }

    /// Takes back steps that were to go to another server, which did none of them: it didn't get them, or it answered
    /// [`NotDone::Moved`] with this revision. The record is first seen up to that revision. Then the steps are judged
    /// again, within the time for which work waits.
    pub fn submit_again(&self, elsewhere: Elsewhere, steps: Vec<WorkStep>, revision: Revision) {
        let Some(steps) = self.taken(steps) else {
            return;
        };
        self.inner.with(elsewhere.shard, |it, _| {
            it.take_back(steps, &elsewhere, revision, self.inner.now());
        });
    }

    /// Returns the steps that can be done. The others end here. Returns nothing if the process or the store has ended.
    fn taken(&self, steps: Vec<WorkStep>) -> Option<Vec<WorkStep>> {
        let is_over = self.inner.is_stopping();
        if is_over || self.inner.ended.get().is_some() {
            for step in steps {
                step.work.end(Err(NotDone::Stopped));
            }
            return None;
        }
        let mut taken = Vec::with_capacity(steps.len());
        for step in steps {
            let other = "the shards are of another service: take the steps of this one";
            let is_other = !self.inner.service.takes(&step.begin);
            let other = is_other.then(|| NotDone::NotMade(other.to_owned()));
            match other.or_else(|| step.begin.refused()) {
                Some(why) => step.work.end(Err(why)),
                None => taken.push(step),
            }
        }
        Some(taken)
    }

    /// Returns the shard's record, as it was last seen.
    pub fn standing(&self, shard: u16) -> Option<StoredRecord> {
        let shard = self.inner.shards.get(usize::from(shard))?;
        Some(locked(shard).stored().clone())
    }

    /// Returns the records by which the shard's owner was seen to be the owner, up to the record that was seen last.
    pub fn ownership(&self, shard: u16) -> Option<Ownership> {
        let shard = self.inner.shards.get(usize::from(shard))?;
        Some(locked(shard).ownership())
    }

    /// Returns whether the server [takes part](takes_part) in the shard by its record, as that was last seen.
    pub fn executes(&self, server: u16, shard: u16) -> bool {
        let record = self.standing(shard).and_then(|it| it.record());
        record.is_some_and(|it| takes_part(it.stand, server))
    }

    /// Makes a transaction on the shard's record while none of the shard's servers has a transaction under way, so that
    /// none of theirs is lost. Waits until the servers use the new record.
    ///
    /// # Errors
    ///
    /// As the store says.
    pub fn change(&self, shard: u16, transaction: Transaction) -> Result<Outcome, WriteError> {
        let (tell, told) = mpsc::channel();
        let holder = move || {
            // The caller waits for it.
            let _ = tell.send(());
        };
        self.inner
            .with(shard, |it, actions| it.hold(Box::new(holder), actions));
        if !self.threads.is_empty() {
            wait_for(&told);
        }
        let outcome = self.inner.store.make(transaction);
        // Some watches told it before the outcome was known. Other stores tell it soon.
        self.inner
            .with(shard, |it, actions| it.release(self.inner.now(), actions));
        outcome
    }

    /// Sets whether requests reach the server.
    pub fn set_away(&self, server: u16, is_away: bool) {
        self.inner.set_away(server, is_away);
    }

    /// Returns whether no request reaches the server, by its state in the store as it was last seen. If the process has
    /// all servers, only [`Durable::set_away`] counts.
    pub fn is_away(&self, server: u16) -> bool {
        self.inner.away().contains(&server)
    }

    /// Makes a new base for each shard that this process executes, deletes the batches that it replaces, and has the
    /// store return the room. Before that, it has the store return the room of earlier deletions, so that there is
    /// some. A base without room is tried again as long as other bases make room.
    ///
    /// # Errors
    ///
    /// As the store says; `NoBase` if some shards got none in the end. Room was returned all the same.
    pub fn compact(&self) -> Result<(), CompactFault> {
        self.inner.store.compact()?;
        let mut left: Vec<u16> = (0..self.shards()).collect();
        let end = self.inner.now() + STOP;
        loop {
            let before = left.len();
            self.make_bases(&left, end);
            left.retain(|it| locked(&self.inner.shards[usize::from(*it)]).lacks_base());
            if left.is_empty() || left.len() == before || self.inner.now() >= end {
                break;
            }
        }
        self.inner.store.compact()?;
        match left.len() {
            0 => Ok(()),
            left => Err(CompactFault::NoBase(left)),
        }
    }

    /// Makes a base for these shards, and waits for it until that time.
    fn make_bases(&self, shards: &[u16], end: Instant) {
        for shard in shards {
            let is_full = self.inner.is_full.load(Ordering::Acquire);
            self.inner.with(*shard, |it, actions| {
                it.want_base(is_full, self.inner.now(), actions);
            });
        }
        let makes_base = |it: &u16| locked(&self.inner.shards[usize::from(*it)]).makes_base();
        let are_made = || !shards.iter().any(makes_base);
        self.inner.block_until(end, are_made);
    }

    /// Has this process measure how much its shards have to do, and tell that to the leader, at most every five
    /// seconds. It is told under the lease of this process's server.
    pub fn measure_loads(&self) {
        self.inner.meter.turn_on();
    }

    /// Counts a request of the shard that a service answers itself. Those that are submitted here are counted anyway.
    pub fn count_request(&self, shard: u16) {
        self.inner.meter.count(shard);
    }

    /// Returns how many requests that only read were answered without a transaction.
    pub fn read_by_lease(&self) -> u64 {
        let shards = self.inner.shards.iter();
        shards.map(|it| locked(it).read_by_lease()).sum()
    }

    /// Returns how many clients' last requests are kept, by the shard that keeps most, as far as this process has read
    /// them.
    pub fn clients_kept(&self) -> usize {
        let shards = self.inner.shards.iter();
        shards.map(|it| locked(it).clients()).max().unwrap_or(0)
    }

    /// Returns the shards whose requests wait here because the store gave nothing when they were last read. This locks
    /// no shard.
    pub fn unread_shards(&self) -> Vec<u16> {
        self.inner.unread.numbers()
    }

    /// Returns how many such shards there are.
    pub fn unread_count(&self) -> usize {
        self.inner.unread.count()
    }

    /// Returns why the store has ended, if it has. Then nothing more is done.
    pub fn ended(&self) -> Option<&str> {
        self.inner.ended.get().map(String::as_str)
    }

    /// Takes no more work, waits for work under way, and refuses the rest.
    pub fn stop(&self) {
        self.inner.stop();
    }
}

impl Drop for Durable {
    fn drop(&mut self) {
        // Without threads nobody would finish the work under way.
        if !self.threads.is_empty() {
            self.inner.stop();
        }
        self.watches
            .lock()
            .unwrap_or_else(PoisonError::into_inner)
            .clear();
        for thread in self.threads.drain(..) {
            // A thread that panicked has logged that.
            let _ = thread.join();
        }
    }
}

impl fmt::Debug for Durable {
    fn fmt(&self, f: &mut fmt::Formatter<'_>) -> fmt::Result {
        f.debug_struct("Durable")
            .field("process", &self.inner.process)
            .field("shards", &self.inner.shards.len())
            .finish_non_exhaustive()
    }
}
