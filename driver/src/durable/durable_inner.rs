use super::reader_job::ReaderJob;
use super::unread_shards::UnreadShards;
use super::watches::written;
use super::{ShardOptions, STOP};
use crate::clock::Clock;
use crate::load_meter::LoadMeter;
use crate::shard::{Action, Shard, Ticket};
use crate::shard_service::ShardService;
use crate::{keys, Acks, Member, NotDone, Own, StoredRecord};
use durkenzo_store::{Outcome, Room, Seen, Store, Transaction, WriteError};
use std::collections::{BTreeMap, BTreeSet};
use std::sync::atomic::{AtomicBool, AtomicU64, AtomicUsize, Ordering};
use std::sync::mpsc::Sender;
use std::sync::{Arc, Mutex, MutexGuard, OnceLock, PoisonError};
use std::time::Instant;

/// The shards of a process, shared by everybody who works with them.
pub(crate) struct DurableInner {
    pub(super) store: Arc<dyn Store>,
    pub(super) service: Arc<dyn ShardService>,
    pub(super) clock: Clock,
    pub(super) shards: Box<[Mutex<Shard>]>,
    /// The shards at which something may wait, or become due.
    pub(super) stirred: Box<[AtomicBool]>,
    pub(super) unread: UnreadShards,
    pub(super) process: u64,
    /// The latest number that was taken for the process, for all shards.
    pub(super) number: AtomicU64,
    /// Whether another number is being taken for all of them.
    pub(super) is_numbering: AtomicBool,
    /// The only server of this process, unless it has all.
    pub(super) own: Option<Own>,
    pub(super) shard_options: ShardOptions,
    /// The servers that no request reaches.
    pub(super) away: Mutex<BTreeSet<u16>>,
    pub(super) jobs: Mutex<Option<Sender<ReaderJob>>>,
    pub(super) under_way: AtomicUsize,
    /// Whether the store reserves room for bases. If it doesn't, no base can be made once it is full.
    pub(super) keeps_room: bool,
    /// Whether it had no room for the last write, except for writes that make room.
    pub(super) is_full: AtomicBool,
    /// How many bytes the bases have that are being written.
    pub(super) basing: AtomicU64,
    pub(super) is_stopping: AtomicBool,
    pub(super) meter: Arc<LoadMeter>,
    /// Why the store has ended, if it has.
    pub(super) ended: OnceLock<String>,
    /// Called for each record that changes.
    pub(super) on_change: Box<dyn Fn() + Send + Sync>,
}

impl DurableInner {
    /// Returns this moment, by the clock of the process.
    pub(crate) fn now(&self) -> Instant {
        self.clock.now()
    }

    /// Returns whether the process ends.
    pub(crate) fn is_stopping(&self) -> bool {
        self.is_stopping.load(Ordering::Acquire)
    }

    /// Does something with the shard, and then carries out the resulting actions without a lock.
    pub(super) fn with(
        self: &Arc<DurableInner>,
        shard: u16,
        work: impl FnOnce(&mut Shard, &mut Vec<Action>),
    ) {
        let Some(place) = self.shards.get(usize::from(shard)) else {
            return;
        };
        let (mut actions, mut held) = (Vec::new(), locked(place));
        work(&mut held, &mut actions);
        self.stirred[usize::from(shard)].store(true, Ordering::Release);
        self.unread.note(shard, held.waits_for_store());
        drop(held);
        // Transactions go to the store first, and then the clients are told whose requests it has made.
        actions.sort_by_key(|it| !matches!(it, Action::Submit(..)));
        actions.into_iter().for_each(|it| self.perform(shard, it));
    }

    pub(super) fn perform(self: &Arc<DurableInner>, shard: u16, action: Action) {
        match action {
            Action::Submit(ticket, transaction) => self.send(shard, ticket, transaction),
            Action::Read(ticket, kept) => {
                self.hand_to_reader(ReaderJob::Shard(shard, ticket, kept))
            }
            Action::Sweep(server) => self.hand_to_reader(ReaderJob::Passing(shard, server)),
            Action::WriteBase(ticket, parts) => {
                self.hand_to_reader(ReaderJob::Room(shard, ticket, parts))
            }
            Action::Delete(keys) => self.delete(&keys),
            Action::Tell(work, outcome) => {
                if outcome.is_ok() {
                    self.meter.count(shard);
                }
                work.end(outcome);
            }
            Action::HandOver(elsewhere, steps) => match &self.own {
                Some(own) => (own.elsewhere)(elsewhere, steps),
                None => steps
                    .into_iter()
                    .for_each(|it| it.work.end(Err(NotDone::Busy))),
            },
            Action::Prepared(generation) => {
                let own = self.acking_server();
                own.into_iter().for_each(|it| it.ack(shard, generation));
            }
            Action::Look => self.hand_to_reader(ReaderJob::Record(shard)),
            Action::Renew => self.hand_to_reader(ReaderJob::Process(shard)),
            Action::Hold(holder) => holder(),
            Action::StoreEnded(why) => {
                let _ = self.ended.set(why);
                (self.on_change)();
            }
        }
    }

    pub(super) fn hand_to_reader(&self, job: ReaderJob) {
        let jobs = self.jobs.lock().unwrap_or_else(PoisonError::into_inner);
        // If there is no receiver, the process ends.
        let _ = jobs.as_ref().map(|it| it.send(job));
    }

    pub(super) fn send(
        self: &Arc<DurableInner>,
        shard: u16,
        ticket: Ticket,
        transaction: Transaction,
    ) {
        self.under_way.fetch_add(1, Ordering::AcqRel);
        let inner = Arc::downgrade(self);
        let grows = transaction.writes() && transaction.room() == Room::Free;
        let done = move |outcome| {
            if let Some(inner) = inner.upgrade() {
                if grows {
                    inner.note_room(&outcome);
                }
                inner.with(shard, |it, actions| {
                    it.on_outcome(ticket, outcome, inner.now(), actions)
                });
                inner.under_way.fetch_sub(1, Ordering::AcqRel);
            }
        };
        self.store.submit(transaction, Box::new(done));
    }

    /// Notes whether the store had room for a write. If it didn't, shards with deleted keys get a base.
    pub(super) fn note_room(&self, outcome: &Result<Outcome, WriteError>) {
        let is_full = match outcome {
            Ok(Outcome::Made(_)) => false,
            Err(WriteError::Full(_)) => self.keeps_room,
            Ok(Outcome::Lost(_)) => return,
            Err(
                WriteError::Unknown(_)
                | WriteError::Unreachable(_)
                | WriteError::Unavailable(_)
                | WriteError::TooLarge(_)
                | WriteError::LeaseEnded
                | WriteError::Damaged(_)
                | WriteError::Denied(_)
                | WriteError::Stopped,
            ) => return,
        };
        let was_full = self.is_full.swap(is_full, Ordering::AcqRel);
        if is_full && !was_full {
            let stirred = self.stirred.iter();
            stirred.for_each(|it| it.store(true, Ordering::Release));
        }
    }

    pub(super) fn away(&self) -> MutexGuard<'_, BTreeSet<u16>> {
        self.away.lock().unwrap_or_else(PoisonError::into_inner)
    }

    pub(super) fn set_away(self: &Arc<DurableInner>, server: u16, is_away: bool) {
        let is_new = match is_away {
            true => self.away().insert(server),
            false => self.away().remove(&server),
        };
        if !is_new {
            return;
        }
        for shard in 0..self.shards.len() as u16 {
            self.with(shard, |it, actions| {
                it.set_away(server, is_away, self.now(), actions);
            });
        }
    }

    /// Returns this process's server, if the process itself acks records.
    fn acking_server(&self) -> Option<&Member> {
        let own = self.own.as_ref().filter(|it| it.acks == Acks::AsRead);
        own.map(|it| &*it.member)
    }

    /// Processes records that the watch has seen.
    pub(super) fn see(self: &Arc<DurableInner>, seen: Seen) {
        let (moment, records) = written(seen);
        let (is_change, mut is_awaited) = (!records.is_empty(), false);
        for it in records {
            if let Some(shard) = keys::shard_of_record(&it.key) {
                let stored = StoredRecord::new(it.value, it.revision);
                is_awaited |= stored.is_awaited();
                let member = self.acking_server();
                let acked = member.and_then(|it| Some((it, stored.let_go_by(it.server())?)));
                self.with(shard, |it, actions| it.see(stored, self.now(), actions));
                // From here on the shard uses this record.
                if let Some((member, generation)) = acked {
                    member.ack(shard, generation);
                }
            }
        }
        if let Some(own) = self.own.as_ref().filter(|_| is_change) {
            own.member.follow(moment, is_awaited);
        }
        (self.on_change)();
    }

    /// Processes states that the watch has seen.
    pub(super) fn see_states(self: &Arc<DurableInner>, seen: Seen) {
        for it in written(seen).1 {
            if let Some(server) = keys::server_of_state(&it.key) {
                self.set_away(server, !keys::is_reached(&it.value));
            }
        }
        (self.on_change)();
    }

    /// Tells the leader the loads of the shards that this process executes, if a measurement is over and they are new.
    pub(crate) fn tell_loads(&self) {
        let Some((own, lease)) = self
            .own
            .as_ref()
            .and_then(|it| Some((it, it.member.lease()?)))
        else {
            return;
        };
        let (now, server) = (self.now(), own.member.server());
        if !self.meter.is_due(now) {
            return;
        }
        let executed: BTreeMap<u16, u64> = (0..)
            .zip(&self.shards)
            .filter_map(|(shard, place)| Some((shard, locked(place).bytes_of(server)?)))
            .collect();
        if let Some(report) = self.meter.report(now, lease, &executed) {
            let told =
                Transaction::new().put_under(keys::load(server), report.bytes(), Some(lease));
            let meter = self.meter.clone();
            let done = move |outcome: Result<Outcome, WriteError>| {
                if outcome.is_err() {
                    meter.forget_told();
                }
            };
            self.store.submit(told, Box::new(done));
        }
    }

    /// Makes each shard drop the work for which nobody waits, and refuse the work that has waited in vain.
    pub(crate) fn tick_shards(self: &Arc<DurableInner>) {
        let now = self.now();
        (0..self.shards.len() as u16).for_each(|it| self.tick(it, now));
    }

    /// Makes the shard drop the work for which nobody waits, and refuse the work that has waited in vain. A shard
    /// without waiting work is skipped until something is done with it again.
    pub(super) fn tick(self: &Arc<DurableInner>, shard: u16, now: Instant) {
        let place = usize::from(shard);
        if !self.stirred[place].load(Ordering::Acquire) {
            return;
        }
        let is_full = self.is_full.load(Ordering::Acquire);
        self.with(shard, |it, actions| {
            it.drop_unwanted(actions);
            if self.acking_server().is_some() {
                it.prepare(now, actions);
            }
            it.tick(now, self.shard_options.wait, actions);
            it.begin_base(is_full, now, actions);
        });
        let held = locked(&self.shards[place]);
        // The store may have become full meanwhile, or may do so from here on. This tick or the next one sees it.
        self.stirred[place].swap(false, Ordering::AcqRel);
        if held.has_waiting(self.is_full.load(Ordering::Acquire)) {
            self.stirred[place].store(true, Ordering::Release);
        }
    }

    pub(super) fn stop(self: &Arc<DurableInner>) {
        if self.is_stopping.swap(true, Ordering::AcqRel) {
            return;
        }
        let is_idle = || self.under_way.load(Ordering::Acquire) == 0;
        self.block_until(self.now() + STOP, is_idle);
        *self.jobs.lock().unwrap_or_else(PoisonError::into_inner) = None;
        for shard in 0..self.shards.len() as u16 {
            self.with(shard, |it, actions| it.give_up(&NotDone::Stopped, actions));
        }
    }
}

pub(super) fn locked<T>(it: &Mutex<T>) -> MutexGuard<'_, T> {
    it.lock().unwrap_or_else(PoisonError::into_inner)
}
