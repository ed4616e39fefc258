use super::job::{Completion, Job};
use super::job_queue::Batch;
use super::leases::Leases;
use super::tables::{Means, TableFailure, Tables};
use super::watchers::Watchers;
use crate::{
    CompactError, KeyChange, Outcome, Pair, ReadError, Reading, Revision, Room, Transaction,
    WriteError,
};
use std::time::{Duration, Instant};

/// How often the tables do their periodic work.
const TICK: Duration = Duration::from_secs(1);

/// The clock of an engine.
pub(super) type Clock = Box<dyn Fn() -> Instant + Send>;

/// Does the jobs of an embedded store. It makes the transactions of a batch in one commit (a group commit), and
/// answers.
pub(super) struct Engine<T> {
    tables: T,
    clock: Clock,
    leases: Leases,
    watchers: Watchers,
    next_tick: Instant,
}

/// Why transactions have no outcome.
enum Trouble {
    /// The disk is full, so none was made.
    Full(String),
    /// The bytes that were read aren't those that were written, so none was made.
    Damaged(String),
    /// None was made, and the tables can't be used any more.
    NotMade(String),
    /// They may have been made, and the tables can't be used any more.
    Unknown(String),
}

impl From<TableFailure> for Trouble {
    /// Makes the trouble of a failure before the commit.
    fn from(failure: TableFailure) -> Trouble {
        match failure {
            TableFailure::Full(reason) => Trouble::Full(reason),
            TableFailure::Damaged(reason) => Trouble::Damaged(reason),
            TableFailure::Broken(reason) => Trouble::NotMade(reason),
        }
    }
}

impl<T: Tables> Engine<T> {
    pub(super) fn new(tables: T, clock: Clock) -> Engine<T> {
        let next_tick = clock() + TICK;
        Engine {
            tables,
            clock,
            leases: Leases::default(),
            watchers: Watchers::default(),
            next_tick,
        }
    }

    /// Returns when something must be done even if no job comes.
    pub(super) fn next_end(&self) -> Instant {
        let end = self.leases.next_end();
        end.map_or(self.next_tick, |it| it.min(self.next_tick))
    }

    /// Does a batch, and returns whether to go on: not if it was the last, or the tables can't be used any more.
    pub(super) fn turn(&mut self, batch: Batch) -> bool {
        let is_served = self.serve(batch.jobs) && self.tables.is_usable();
        let is_usable = is_served && (batch.is_last || self.tick());
        if !is_usable {
            self.tables.give_up();
        }
        is_usable && !batch.is_last
    }

    /// Does these jobs, and returns whether the tables can still be used.
    fn serve(&mut self, jobs: Vec<Job>) -> bool {
        let (mut transactions, mut tickets, mut others) = (Vec::new(), Vec::new(), Vec::new());
        for job in jobs {
            match job {
                Job::Make(transaction, ticket) => {
                    transactions.push(transaction);
                    tickets.push(ticket);
                }
                Job::Unwatch(number) => self.watchers.remove(number),
                other => others.push(other),
            }
        }
        let goes_on = self.end_leases() && self.make_and_tell(&transactions, tickets);
        if goes_on {
            others.into_iter().for_each(|it| self.answer(it));
        }
        goes_on
    }

    /// Deletes the keys of leases that ended. If the disk is full, the next call does it.
    fn end_leases(&mut self) -> bool {
        let deletes = self.leases.ended((self.clock)());
        !deletes.writes()
            || !matches!(
                self.make(&[deletes]),
                Err(Trouble::NotMade(_) | Trouble::Unknown(_))
            )
    }

    /// Makes these transactions and tells their outcomes. If not all of them can be made together, makes each by
    /// itself.
    fn make_and_tell(&mut self, transactions: &[Transaction], tickets: Vec<Completion>) -> bool {
        match self.make(transactions) {
            Ok(outcomes) => tickets
                .into_iter()
                .zip(outcomes)
                .for_each(|(ticket, it)| ticket.tell(it)),
            Err(Trouble::Full(_) | Trouble::Damaged(_)) if transactions.len() > 1 => {
                let mut alone = transactions.iter().zip(tickets);
                return alone.all(|(it, ticket)| {
                    self.make_and_tell(std::slice::from_ref(it), vec![ticket])
                });
            }
            Err(trouble) => {
                let (error, goes_on) = match trouble {
                    Trouble::Full(reason) => (WriteError::Full(reason), true),
                    Trouble::Damaged(reason) => (WriteError::Damaged(reason), true),
                    Trouble::NotMade(reason) => (WriteError::Unreachable(reason), false),
                    Trouble::Unknown(reason) => (WriteError::Unknown(reason), false),
                };
                tickets
                    .into_iter()
                    .for_each(|ticket| ticket.tell(Err(error.clone())));
                return goes_on;
            }
        }
        true
    }

    /// Makes these transactions in one commit. If there is only one and the disk has no room for it, makes room.
    fn make(
        &mut self,
        transactions: &[Transaction],
    ) -> Result<Vec<Result<Outcome, WriteError>>, Trouble> {
        let mut made = self.make_at_once(transactions);
        if !matches!(made, Err(Trouble::Full(_))) || transactions.len() > 1 {
            return made;
        }
        for means in Means::EACH {
            if !self.tables.make_room(means) {
                break;
            }
            made = self.make_at_once(transactions);
            if !matches!(made, Err(Trouble::Full(_))) {
                break;
            }
        }
        self.tables.take_room_back();
        made
    }

    /// Makes these transactions, one after another, in one commit, and tells the watchers.
    fn make_at_once(
        &mut self,
        transactions: &[Transaction],
    ) -> Result<Vec<Result<Outcome, WriteError>>, Trouble> {
        let writes = transactions.iter().any(Transaction::writes);
        if writes {
            let begun = self.tables.begin(room_of(transactions));
            begun.map_err(|it| self.taken_back(it.into()))?;
        }
        let mut changes = Vec::new();
        let outcomes = match self.make_each(transactions, &mut changes) {
            Ok(outcomes) => outcomes,
            Err(failure) => return Err(self.taken_back(failure.into())),
        };
        if let Some(moment) = changes.last().map(|it| it.revision) {
            self.commit(moment)?;
            self.watchers.tell(moment, &changes);
        } else if writes {
            self.tables.rollback()?;
        }
        for (it, outcome) in transactions.iter().zip(&outcomes) {
            if matches!(outcome, Ok(Outcome::Made(_))) {
                self.leases.note(it);
            }
        }
        Ok(outcomes)
    }

    /// Returns the outcome of each, in their order. They aren't committed yet.
    fn make_each(
        &mut self,
        transactions: &[Transaction],
        changes: &mut Vec<KeyChange>,
    ) -> Result<Vec<Result<Outcome, WriteError>>, TableFailure> {
        let mut moment = self.tables.moment();
        let mut outcomes = Vec::with_capacity(transactions.len());
        for it in transactions {
            let outcome = self.make_one(it, moment, changes)?;
            if let Ok(Outcome::Made(revision)) = outcome {
                moment = revision;
            }
            outcomes.push(outcome);
        }
        Ok(outcomes)
    }

    fn make_one(
        &mut self,
        transaction: &Transaction,
        moment: Revision,
        changes: &mut Vec<KeyChange>,
    ) -> Result<Result<Outcome, WriteError>, TableFailure> {
        for it in &transaction.compares {
            if self.tables.revision_of(&it.key)? != it.revision {
                return Ok(Ok(Outcome::Lost(self.reading(moment, &transaction.reads)?)));
            }
        }
        if transaction
            .puts
            .iter()
            .any(|it| it.lease.is_some_and(|id| !self.leases.is_kept(id)))
        {
            return Ok(Err(WriteError::LeaseEnded));
        }
        let (before, next) = (changes.len(), moment.next());
        self.write(transaction, next, changes)?;
        let is_written = changes.len() > before;
        Ok(Ok(Outcome::Made(if is_written { next } else { moment })))
    }

    /// Makes the writes of the transaction, and notes each change.
    fn write(
        &mut self,
        transaction: &Transaction,
        revision: Revision,
        changes: &mut Vec<KeyChange>,
    ) -> Result<(), TableFailure> {
        for key in &transaction.deletes {
            if self.tables.delete(key)? {
                changes.push(KeyChange {
                    key: key.clone(),
                    value: None,
                    revision,
                    created: Revision::NEVER,
                });
            }
        }
        for it in &transaction.puts {
            let pair = Pair {
                key: it.key.clone(),
                value: it.value.clone(),
                revision,
                created: revision,
            };
            let created = self.tables.put(&pair, it.lease)?;
            changes.push(KeyChange {
                key: pair.key,
                value: Some(pair.value),
                revision,
                created,
            });
        }
        Ok(())
    }

    /// Commits. If that fails, returns its meaning for the transactions.
    fn commit(&mut self, moment: Revision) -> Result<(), Trouble> {
        match self.tables.commit(moment) {
            Ok(()) => Ok(()),
            Err(TableFailure::Full(reason)) => Err(self.taken_back(Trouble::Full(reason))),
            Err(TableFailure::Damaged(reason) | TableFailure::Broken(reason)) => {
                Err(Trouble::Unknown(reason))
            }
        }
    }

    /// Takes back the writes, after this trouble.
    fn taken_back(&mut self, trouble: Trouble) -> Trouble {
        match self.tables.rollback() {
            Ok(()) => trouble,
            Err(
                TableFailure::Full(reason)
                | TableFailure::Damaged(reason)
                | TableFailure::Broken(reason),
            ) => Trouble::NotMade(reason),
        }
    }

    fn reading(&self, moment: Revision, keys: &[Vec<u8>]) -> Result<Reading, TableFailure> {
        let found: Result<Vec<_>, _> = keys.iter().map(|it| self.tables.pair_of(it)).collect();
        Ok(Reading {
            revision: moment,
            pairs: found?.into_iter().flatten().collect(),
        })
    }

    fn reading_of_all(&self, prefix: &[u8]) -> Result<Reading, ReadError> {
        let pairs = self.tables.pairs(prefix).map_err(unavailable)?;
        Ok(Reading {
            revision: self.tables.moment(),
            pairs,
        })
    }

    fn reading_of_range(&self, from: &[u8], end: &[u8], most: usize) -> Result<Reading, ReadError> {
        let pairs = self.tables.range(from, end, most).map_err(unavailable)?;
        Ok(Reading {
            revision: self.tables.moment(),
            pairs,
        })
    }

    /// Answers a job that isn't a transaction. If its client no longer waits, it needs no answer.
    fn answer(&mut self, job: Job) {
        let now = (self.clock)();
        match job {
            Job::Make(..) | Job::Unwatch(_) | Job::End => {}
            Job::Read(keys, tell) => {
                let _ = tell.send(
                    self.reading(self.tables.moment(), &keys)
                        .map_err(unavailable),
                );
            }
            Job::ReadAll(prefix, tell) => {
                let _ = tell.send(self.reading_of_all(&prefix));
            }
            Job::ReadRange(from, end, most, tell) => {
                let _ = tell.send(self.reading_of_range(&from, &end, most));
            }
            Job::ReadKeys(from, end, tell) => {
                let _ = tell.send(self.tables.keys(&from, &end).map_err(unavailable));
            }
            Job::Watch(number, prefix, watcher, tell) => {
                let reading = self.reading_of_all(&prefix);
                let _ = tell.send(reading.map(|it| self.watchers.add(number, prefix, watcher, it)));
            }
            Job::Compact(tell) => {
                let made = self.tables.compact();
                let _ = tell.send(made.map_err(|it| CompactError::from(unavailable(it))));
            }
            Job::Left(tell) => drop(tell.send(self.tables.left())),
            Job::Grant(length, tell) => {
                let _ = tell.send(self.leases.grant(length, now));
            }
            Job::Keep(lease, tell) => {
                let _ = tell.send(self.leases.keep(lease, now));
            }
            Job::Revoke(lease, tell) => {
                let _ = tell.send(self.leases.revoke(lease, now));
            }
        }
    }

    /// Has the tables do their periodic work, and returns whether they can still be used.
    fn tick(&mut self) -> bool {
        let now = (self.clock)();
        if now < self.next_tick {
            return true;
        }
        self.next_tick = now + TICK;
        !matches!(self.tables.tick(), Err(TableFailure::Broken(_)))
    }
}

/// Returns the room that all of them may use.
fn room_of(transactions: &[Transaction]) -> Room {
    let writing = transactions.iter().filter(|it| it.writes());
    match writing
        .map(Transaction::room)
        .all(|it| it == Room::KeptBack)
    {
        true => Room::KeptBack,
        false => Room::Free,
    }
}

fn unavailable(failure: TableFailure) -> ReadError {
    match failure {
        TableFailure::Full(reason) | TableFailure::Broken(reason) => ReadError::Unavailable(reason),
        TableFailure::Damaged(reason) => ReadError::Damaged(reason),
    }
}
