//! A store that is implemented outside of the crate, as a user's would be: in memory, with a thread that does all the
//! work.
use durkenzo_store::{
    CompactError, Done, KeyChange, LeaseError, LeaseId, Outcome, Pair, ReadError, Reading,
    Revision, Seen, Store, Transaction, Watch, Watcher, WriteError,
};
use std::collections::BTreeMap;
use std::sync::atomic::{AtomicU64, Ordering};
use std::sync::mpsc::{self, Receiver, RecvTimeoutError, Sender};
use std::thread;
use std::time::{Duration, Instant};

/// How often leases are checked.
const STEP: Duration = Duration::from_millis(50);

type Job = Box<dyn FnOnce(&mut Kept) + Send>;

/// A key, its new value (nothing if it was deleted), and its lease.
type Written = (Vec<u8>, Option<Vec<u8>>, Option<LeaseId>);

/// The store's keys, and its watchers.
#[derive(Default)]
struct Kept {
    revision: Revision,
    pairs: BTreeMap<Vec<u8>, Pair>,
    leased: BTreeMap<Vec<u8>, LeaseId>,
    leases: BTreeMap<LeaseId, (Duration, Instant)>,
    watchers: BTreeMap<u64, (Vec<u8>, Watcher)>,
}

impl Kept {
    fn run(mut self, jobs: &Receiver<Job>) {
        loop {
            match jobs.recv_timeout(STEP) {
                Ok(job) => job(&mut self),
                Err(RecvTimeoutError::Timeout) => {}
                Err(RecvTimeoutError::Disconnected) => return,
            }
            let (now, mut leases) = (Instant::now(), self.leases.iter());
            if let Some((&ended, _)) = leases.find(|(_, (_, end))| *end < now) {
                self.end(ended);
            }
        }
    }

    fn reading(&self, pairs: Vec<Pair>) -> Reading {
        let revision = self.revision;
        Reading { revision, pairs }
    }

    fn read<'a>(&self, keys: impl IntoIterator<Item = &'a Vec<u8>>) -> Reading {
        let there = keys.into_iter().filter_map(|it| self.pairs.get(it));
        self.reading(there.cloned().collect())
    }

    fn all(&self, prefix: &[u8]) -> Reading {
        let pairs = self.pairs.values();
        self.reading(
            pairs
                .filter(|it| it.key.starts_with(prefix))
                .cloned()
                .collect(),
        )
    }

    fn range(&self, from: &[u8], end: &[u8], most: usize) -> Reading {
        let from_there = self.pairs.range(from.to_vec()..).map(|(_, it)| it);
        let within = from_there.take_while(|it| it.key[..] < *end).take(most);
        self.reading(within.cloned().collect())
    }

    fn make(&mut self, transaction: Transaction) -> Result<Outcome, WriteError> {
        let revision_of = |key| {
            self.pairs
                .get(key)
                .map_or(Revision::NEVER, |it: &Pair| it.revision)
        };
        if transaction
            .compares
            .iter()
            .any(|it| revision_of(&it.key) != it.revision)
        {
            return Ok(Outcome::Lost(self.read(&transaction.reads)));
        }
        let mut leases = transaction.puts.iter().filter_map(|it| it.lease);
        if leases.any(|it| !self.leases.contains_key(&it)) {
            return Err(WriteError::LeaseEnded);
        }
        let deleted = transaction.deletes.into_iter().map(|key| (key, None, None));
        let written = transaction
            .puts
            .into_iter()
            .map(|it| (it.key, Some(it.value), it.lease));
        Ok(Outcome::Made(self.write(deleted.chain(written).collect())))
    }

    /// Writes and deletes these keys, and tells the watchers.
    fn write(&mut self, changes: Vec<Written>) -> Revision {
        let (revision, mut made) = (self.revision.next(), Vec::new());
        for (key, value, lease) in changes {
            self.leased.remove(&key);
            self.leased.extend(lease.map(|it| (key.clone(), it)));
            let created = self.pairs.get(&key).map_or(revision, |it| it.created);
            let pair = value.clone().map(|value| Pair {
                key: key.clone(),
                value,
                revision,
                created,
            });
            let before = match pair {
                Some(pair) => self.pairs.insert(key.clone(), pair),
                None => self.pairs.remove(&key),
            };
            if value.is_some() || before.is_some() {
                made.push(KeyChange {
                    key,
                    created: value.as_ref().map_or(Revision::NEVER, |_| created),
                    value,
                    revision,
                });
            }
        }
        if !made.is_empty() {
            self.revision = revision;
            self.tell(&made);
        }
        self.revision
    }

    fn tell(&mut self, made: &[KeyChange]) {
        for (prefix, watcher) in self.watchers.values_mut() {
            let changes = made.iter().filter(|it| it.key.starts_with(prefix)).cloned();
            let changes: Vec<_> = changes.collect();
            if !changes.is_empty() {
                watcher(Seen::Changes(self.revision, changes));
            }
        }
    }

    /// Ends a lease, and deletes its keys. Returns whether it hadn't ended before.
    fn end(&mut self, lease: LeaseId) -> bool {
        let keys = self.leased.iter().filter(|(_, it)| **it == lease);
        let keys = keys.map(|(key, _)| (key.clone(), None, None)).collect();
        self.write(keys);
        self.leases.remove(&lease).is_some()
    }
}

/// The store.
pub struct Plain {
    jobs: Sender<Job>,
    next: AtomicU64,
}

impl Plain {
    pub fn new() -> Plain {
        let (jobs, asked) = mpsc::channel();
        thread::spawn(move || Kept::default().run(&asked));
        Plain {
            jobs,
            next: AtomicU64::new(1),
        }
    }

    /// Makes the thread do this work, and returns the result.
    fn ask<A: Send + 'static>(&self, work: impl FnOnce(&mut Kept) -> A + Send + 'static) -> A {
        let (tell, told) = mpsc::channel();
        self.jobs
            .send(Box::new(move |kept| drop(tell.send(work(kept)))))
            .expect("it runs");
        told.recv().expect("it runs")
    }
}

impl Store for Plain {
    fn submit(&self, transaction: Transaction, done: Done) {
        let job = move |kept: &mut Kept| done(kept.make(transaction));
        self.jobs.send(Box::new(job)).expect("it runs");
    }

    fn read(&self, keys: &[&[u8]]) -> Result<Reading, ReadError> {
        let keys: Vec<_> = keys.iter().map(|it| it.to_vec()).collect();
        Ok(self.ask(move |kept| kept.read(&keys)))
    }

    fn read_all(&self, prefix: &[u8]) -> Result<Reading, ReadError> {
        let prefix = prefix.to_vec();
        Ok(self.ask(move |kept| kept.all(&prefix)))
    }

    fn read_range(&self, from: &[u8], end: &[u8], most: usize) -> Result<Reading, ReadError> {
        let (from, end) = (from.to_vec(), end.to_vec());
        Ok(self.ask(move |kept| kept.range(&from, &end, most)))
    }

    fn watch(&self, prefix: &[u8], mut watcher: Watcher) -> Result<Watch, ReadError> {
        let (number, prefix) = (self.next.fetch_add(1, Ordering::Relaxed), prefix.to_vec());
        self.ask(move |kept| {
            watcher(Seen::All(kept.all(&prefix)));
            kept.watchers.insert(number, (prefix, watcher));
        });
        let jobs = self.jobs.clone();
        let forget = move |kept: &mut Kept| drop(kept.watchers.remove(&number));
        Ok(Watch::ended_by(move || drop(jobs.send(Box::new(forget)))))
    }

    fn grant(&self, length: Duration) -> Result<LeaseId, LeaseError> {
        let lease = LeaseId(self.next.fetch_add(1, Ordering::Relaxed) as i64);
        self.ask(move |kept| kept.leases.insert(lease, (length, Instant::now() + length)));
        Ok(lease)
    }

    fn keep(&self, lease: LeaseId) -> Result<(), LeaseError> {
        self.ask(move |kept| {
            let (length, end) = kept
                .leases
                .get_mut(&lease)
                .ok_or(LeaseError::Ended(lease))?;
            *end = Instant::now() + *length;
            Ok(())
        })
    }

    fn revoke(&self, lease: LeaseId) -> Result<(), LeaseError> {
        match self.ask(move |kept| kept.end(lease)) {
            true => Ok(()),
            false => Err(LeaseError::Ended(lease)),
        }
    }

    fn compact(&self) -> Result<(), CompactError> {
        Ok(())
    }
}
