//! The store that all processes share: an etcd whose members fail by chance, and the transactions on their way to it.
use crate::bug::Bug;
use crate::chance::Chance;
use crate::etcd::{
    EtcdRefusal, EtcdTransaction, Keyspace, Members, Reached, Response, Route, MEMBERS,
};
use crate::fault::Fault;
use crate::faults::Faults;
use crate::flight::{Became, Flight};
use crate::time::Time;
use crate::timeline::{Column, Timeline};
use crate::told::summary;
use crate::watches::Watches;
use durkenzo_store::{LeaseId, Outcome, Pair, Reading, Revision, Transaction, WriteError};
use std::collections::BTreeMap;
use std::sync::{Arc, Mutex, MutexGuard};
use std::time::Duration;

/// The store that all processes share.
pub type SharedStore = Arc<Mutex<SimulatedStore>>;

/// Locks the store. The lock must not be held while somebody is told something, because the listener may lock the store
/// too.
pub fn locked(shared: &SharedStore) -> MutexGuard<'_, SimulatedStore> {
    shared.lock().expect("no schedule goes on after a panic")
}

pub struct SimulatedStore {
    pub chance: Chance,
    pub bug: Option<Bug>,
    pub time: Time,
    pub faults: Faults,
    pub timeline: Timeline,
    /// If this holds, nothing is lost or late, as before a schedule begins.
    pub is_calm: bool,
    /// How often this schedule's faults strike, compared with other schedules.
    harshness: u64,
    pub(crate) keyspace: Keyspace,
    pub(crate) members: Members,
    pub(crate) routes: Vec<Route>,
    /// The column of each route's owner, in timelines.
    columns: Vec<Column>,
    /// The store has no room before this time.
    pub(crate) full_until: Duration,
    /// All transactions that were made and wrote something, with their revisions, and the time of each revision.
    pub made: Vec<(u64, Transaction)>,
    times: Vec<(Duration, u64)>,
    pub flights: Vec<Flight>,
    /// How many transactions were sent. For each column, how many had been sent when its control last went on.
    pub(crate) sent: u64,
    pub(crate) given_up: BTreeMap<usize, u64>,
    /// The first command that was made although its control had given it up.
    pub made_late: Option<String>,
    pub(crate) watches: Watches,
    /// How many leases were asked for.
    leases: i64,
    /// How many transactions weren't made because a compare didn't hold.
    pub lost: u64,
    /// How often a leader has compacted history.
    pub compactions: u64,
}

impl SimulatedStore {
    pub fn new(
        mut chance: Chance,
        bug: Option<Bug>,
        time: Time,
        (faults, timeline): (Faults, Timeline),
    ) -> SimulatedStore {
        let harshness = [0, 1, 1, 3][chance.below(4) as usize];
        SimulatedStore {
            chance,
            harshness,
            bug,
            time,
            faults,
            timeline,
            is_calm: true,
            keyspace: Keyspace::default(),
            members: Members::default(),
            routes: Vec::new(),
            columns: Vec::new(),
            full_until: Duration::ZERO,
            made: Vec::new(),
            times: Vec::new(),
            flights: Vec::new(),
            sent: 0,
            given_up: BTreeMap::new(),
            made_late: None,
            watches: Watches::default(),
            leases: 0,
            lost: 0,
            compactions: 0,
        }
    }

    /// Returns the revision of the last change.
    pub fn revision(&self) -> u64 {
        self.keyspace.revision()
    }

    /// Returns the value of the key at this revision.
    pub fn pair_at(&self, key: &[u8], revision: u64) -> Option<Pair> {
        self.keyspace.pair_at(key, revision)
    }

    /// Returns whether the key has a value now.
    pub fn has(&self, key: &[u8]) -> bool {
        self.keyspace.revision_of(key) > 0
    }

    /// Returns the values that the key had from the first of these revisions to the second.
    pub fn between(&self, key: &[u8], since: u64, until: u64) -> Vec<Option<&[u8]>> {
        self.keyspace.between(key, since, until)
    }

    /// Returns the last values of the keys with this prefix that have no value any more.
    pub fn gone_of(&self, prefix: &[u8]) -> Vec<Pair> {
        self.keyspace.gone_of(prefix)
    }

    /// Returns all keys that have a value.
    pub fn keys(&self) -> impl Iterator<Item = &[u8]> {
        self.keyspace.keys_from(b"")
    }

    /// Returns how many leases there are.
    pub fn leases(&self) -> usize {
        self.keyspace.leases()
    }

    /// Returns how many watches there are.
    pub fn watches(&self) -> usize {
        self.watches.len()
    }

    /// Reads these keys as they are now.
    pub fn reading<'a>(&self, keys: impl Iterator<Item = &'a [u8]>) -> Reading {
        let revision = self.revision();
        Reading {
            revision: Revision(revision),
            pairs: keys.filter_map(|it| self.pair_at(it, revision)).collect(),
        }
    }

    /// Reads the keys from `from` on, as long as `is_in` holds for them, but at most `most` of them.
    pub fn range(&self, from: &[u8], is_in: impl Fn(&[u8]) -> bool, most: usize) -> Reading {
        let there = self.keyspace.keys_from(from).take_while(|it| is_in(it));
        self.reading(there.take(most))
    }

    /// Returns the revision that the store had at that time.
    pub fn revision_at(&self, time: Duration) -> u64 {
        let count = self.times.partition_point(|it| it.0 <= time);
        count.checked_sub(1).map_or(0, |it| self.times[it].1)
    }

    /// Makes the transaction, if its compares hold and its leases haven't ended.
    pub fn make(&mut self, transaction: &Transaction) -> Became {
        self.keyspace.set_full(self.is_full());
        let before = self.revision();
        let reply = match self.keyspace.make(&EtcdTransaction::from(transaction)) {
            Ok(reply) => reply,
            Err(refusal) => return Err(self.write_error(refusal, transaction)),
        };
        if !reply.succeeded {
            self.lost += 1;
            let pairs = reply.responses.into_iter().flat_map(|it| match it {
                Response::Range(found) => found.pairs,
                Response::Put | Response::Deleted(_) => Vec::new(),
            });
            return Ok(Outcome::Lost(Reading {
                revision: Revision(reply.revision),
                pairs: pairs.collect(),
            }));
        }
        if reply.revision > before {
            self.note_made(transaction.clone());
        }
        Ok(Outcome::Made(Revision(reply.revision)))
    }

    /// Returns the error by which the store's client reports a refusal. If there was no room, the client looks at a key
    /// that the transaction compares and writes. Unless that key is as it was, the transaction may have been made.
    fn write_error(&self, refusal: EtcdRefusal, transaction: &Transaction) -> WriteError {
        let why = format!("{refusal:?}");
        match refusal {
            EtcdRefusal::NoLease => WriteError::LeaseEnded,
            EtcdRefusal::DuplicateKey => WriteError::Unavailable(why),
            EtcdRefusal::NoSpace => {
                let is_written = |key: &[u8]| transaction.puts.iter().any(|it| it.key == key);
                let mut compares = transaction.compares.iter();
                let compared = compares.find(|it| is_written(&it.key));
                let is_as_it_was =
                    compared.is_some_and(|it| self.keyspace.revision_of(&it.key) == it.revision.0);
                match is_as_it_was {
                    true => WriteError::Full(why),
                    false => WriteError::Unknown(why),
                }
            }
            EtcdRefusal::Compacted | EtcdRefusal::Future | EtcdRefusal::LeaseExists => {
                WriteError::Unknown(why)
            }
        }
    }

    /// Compacts history up to this revision, as the process of this column asks.
    pub fn compact_by(&mut self, revision: u64, column: Column) {
        self.compactions += 1;
        self.timeline
            .note(column, || format!("compacts history up to {revision}"));
        // If another compaction went further, this one fails and changes nothing.
        let _ = self.keyspace.compact(revision);
    }

    /// Notes that this transaction made the present revision.
    fn note_made(&mut self, transaction: Transaction) {
        let revision = self.revision();
        self.watches
            .note(revision, self.keyspace.changes_of(revision));
        self.times.push((self.time.passed(), revision));
        let made = || format!("{revision}: {}", summary(&transaction));
        self.timeline.note(Column::Store, made);
        self.made.push((revision, transaction));
    }

    /// Draws whether the fault strikes in this column, with a probability of `harshness` in `times`. While all is calm,
    /// no fault strikes.
    pub(crate) fn fails(&mut self, fault: Fault, times: u64, column: Column) -> bool {
        !self.is_calm && self.faults.strikes(fault, self.harshness, times, column)
    }

    /// Draws in the same way whether the fault strikes the store. If it strikes, returns the random numbers for its
    /// details.
    pub(crate) fn struck(&mut self, fault: Fault, times: u64) -> Option<Chance> {
        if self.is_calm {
            return None;
        }
        self.faults
            .strike(fault, self.harshness, times, Column::Store)
    }

    /// Adds a route to the members for this column, and returns its number. The route has all members, beginning with a
    /// random one, or only one member.
    pub fn new_route(&mut self, column: Column) -> usize {
        self.columns.push(column);
        let first = self.chance.below(MEMBERS as u64) as usize;
        let all = (first..first + MEMBERS).map(|it| it % MEMBERS);
        let count = if self.chance.is_true(1, 4) {
            1
        } else {
            MEMBERS
        };
        self.routes.push(Route::to(all.take(count).collect()));
        self.routes.len() - 1
    }

    /// Returns the column of a route's owner.
    pub fn column_of(&self, route: usize) -> Column {
        self.columns[route]
    }

    /// Returns how a member of this route takes a call. The call skips members that can't be reached.
    pub(crate) fn reached(&mut self, route: usize) -> Reached {
        if self.is_calm {
            return Reached::Answers;
        }
        let (now, route) = (self.time.passed(), &mut self.routes[route]);
        for _ in 0..route.count() {
            match self.members.reached(route.current(), now) {
                Reached::IsGone => route.pass_over(),
                reached => return reached,
            }
        }
        Reached::IsGone
    }

    /// Returns whether any member of this route answers a call that may be made twice. The next call goes to that
    /// member.
    pub(crate) fn answers(&mut self, route: usize) -> bool {
        for _ in 0..self.routes[route].count() {
            match self.reached(route) {
                Reached::Answers => return true,
                Reached::Hangs | Reached::IsGone => self.routes[route].pass_over(),
            }
        }
        false
    }

    /// Returns whether the store takes no puts and grants no leases.
    pub(crate) fn is_full(&self) -> bool {
        !self.is_calm && self.time.passed() < self.full_until
    }

    /// Makes the store count `others` more processes, as if they had begun and ended by now.
    pub fn begin_processes(&mut self, others: u64) {
        let last = self.pair_at(b"process", self.revision());
        let last = last.and_then(|it| String::from_utf8(it.value).ok());
        let last: u64 = last.and_then(|it| it.parse().ok()).unwrap_or(0);
        let number = (last + others).to_string();
        let was_calm = std::mem::replace(&mut self.is_calm, true);
        let begun = self.make(&Transaction::new().put("process", number));
        begun.expect("nothing is compared, and there is room");
        self.is_calm = was_calm;
    }

    /// Grants a lease of this length. Returns `None` if there is no room.
    pub fn grant(&mut self, length: Duration) -> Option<LeaseId> {
        self.leases += 1;
        self.keyspace.set_full(self.is_full());
        let (lease, now) = (LeaseId(self.leases), self.time.passed());
        let granted = self.keyspace.grant(lease, length, now);
        granted.is_ok().then_some(lease)
    }

    /// Keeps a lease for its whole length from now on. Returns whether the lease hadn't ended.
    pub fn keep(&mut self, lease: LeaseId) -> bool {
        let now = self.time.passed();
        self.keyspace.keep(lease, now)
    }

    /// Ends a lease and deletes its keys. Returns whether the lease hadn't ended.
    pub fn revoke(&mut self, lease: LeaseId) -> bool {
        let keys = self.keyspace.keys_of(lease).cloned();
        let is_ended = self.keyspace.revoke(lease).is_ok();
        let ended = Transaction {
            deletes: keys.into_iter().flatten().collect(),
            ..Transaction::default()
        };
        if !ended.deletes.is_empty() {
            self.note_made(ended);
        }
        is_ended
    }

    /// Ends the leases that weren't kept in time, by the leader's clock. Does nothing while there is no leader.
    pub fn lapse(&mut self) {
        let now = self.time.passed();
        if !self.is_calm && !self.members.serve(now) {
            return;
        }
        for lease in self.keyspace.overdue(now) {
            self.revoke(lease);
        }
    }
}
