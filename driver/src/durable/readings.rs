//! The readings of the store for shards, and the numbers of the process.
use super::durable_inner::{locked, DurableInner};
use super::reader_job::{ReadBack, ReaderJob};
use crate::recovery::{ServerPlace, Source};
use crate::shard::{Action, Shard};
use crate::{keys, process, recovery, StoredRecord};
use std::sync::atomic::Ordering;
use std::sync::Arc;
use std::time::Instant;

impl DurableInner {
    fn source(&self) -> Source<'_> {
        Source {
            store: &*self.store,
            service: &*self.service,
        }
    }

    /// Reads the shard's record, because somebody has seen a later one. If it can't be read, it is tried again.
    fn read_record(&self, shard: u16) -> Option<StoredRecord> {
        let key = keys::record(shard);
        let found = self.store.read(&[&key]).ok()?;
        let pair = found.pairs.into_iter().next()?;
        Some(StoredRecord::new(pair.value, pair.revision))
    }

    /// Gives later requests of all shards this number of the process. If there is none, it is tried again.
    fn renew_all(self: &Arc<DurableInner>, process: Option<u64>) {
        if let Some(process) = process {
            for shard in 0..self.shards.len() as u16 {
                self.with(shard, |it, actions| it.renew(process, self.now(), actions));
            }
            self.number.fetch_max(process, Ordering::AcqRel);
        }
        self.is_numbering.store(false, Ordering::Release);
    }

    /// Takes another number for the process if many others have begun since. Tells them once no shard has requests by
    /// an earlier number: then the requests of earlier numbers can be forgotten.
    pub(crate) fn keep_number(&self) {
        let Some(own) = &self.own else {
            return;
        };
        let number = self.number.load(Ordering::Acquire);
        if own.member.is_old(number) {
            if !self.is_numbering.swap(true, Ordering::AcqRel) {
                self.hand_to_reader(ReaderJob::ProcessOfAll);
            }
        } else if own.member.own_lowest() < number {
            let firsts = self.shards.iter().map(|it| locked(it).first_process());
            if firsts.min().is_some_and(|it| it >= number) {
                own.member.tell_lowest(number);
            }
        }
    }

    /// Reads the store for this job. Returns the call that tells the result.
    pub(crate) fn read(self: &Arc<DurableInner>, job: ReaderJob) -> ReadBack {
        let inner = self.clone();
        match job {
            ReaderJob::Shard(shard, ticket, kept) => {
                let place = ServerPlace {
                    server: ticket.server,
                    shard,
                    count: self.shards.len() as u16,
                };
                let read = recovery::recover(self.source(), kept, place);
                inner.told(shard, move |it, now, actions| {
                    it.on_read(ticket, read, now, actions);
                })
            }
            ReaderJob::Record(shard) => match self.read_record(shard) {
                Some(stored) => inner.told(shard, |it, now, actions| it.see(stored, now, actions)),
                None => Box::new(|| {}),
            },
            ReaderJob::Process(shard) => {
                // If there is no number, it is tried again.
                let process = process::begin(&*self.store).unwrap_or(0);
                inner.told(shard, move |it, now, actions| {
                    it.renew(process, now, actions)
                })
            }
            ReaderJob::ProcessOfAll => {
                let process = process::begin(&*self.store).ok();
                Box::new(move || inner.renew_all(process))
            }
            ReaderJob::Room(shard, ticket, parts) => {
                Box::new(move || inner.write_base(shard, ticket, parts))
            }
            ReaderJob::Passing(shard, server) => {
                // If it can't be read, the next base sweeps.
                let found = recovery::passing(self.source(), shard).unwrap_or_default();
                inner.told(shard, move |it, _, actions| {
                    it.on_swept(server, found, actions)
                })
            }
        }
    }

    /// Returns the call that does this with the shard.
    fn told(
        self: Arc<DurableInner>,
        shard: u16,
        work: impl FnOnce(&mut Shard, Instant, &mut Vec<Action>) + Send + 'static,
    ) -> ReadBack {
        Box::new(move || self.with(shard, |it, actions| work(it, self.now(), actions)))
    }
}
