use super::pending_write::PendingWrite;
use super::PAUSE;
use crate::keys;
use durkenzo_store::{Outcome, Revision, Transaction, WriteError};
use std::time::Instant;

/// The tenure of a process: since when no other process of its server has executed.
///
/// The key `ran/SERVER` lies under no lease, and names the process of the server that last executed. Under each of its
/// leases a process writes that key before it executes anything. The transaction compares
///
/// - the revision of the server's own key, as this process wrote it. So a process can't write `ran/SERVER` any more
///   once another one has joined as its server;
/// - the revision of `ran/SERVER`, as this process knows it. So nobody has written the key since then.
///
/// If `ran/SERVER` named this process until then, the tenure goes on: since this process was the last one to execute,
/// no other one of its server has, and its memory is up to date. If the key named another process, or none, a tenure
/// begins with this lease. If the outcome of a transaction isn't known, the next one finds whom the key names: a
/// process that finds itself there has compared the state that it knew before.
pub(super) struct Tenure {
    process: u64,
    /// The revision of `ran/SERVER`, as this process knows it.
    known: Revision,
    /// The revision at which this process joined under the first lease of the tenure, [`Revision::NEVER`] if it has
    /// none.
    since: Revision,
    /// The revision at which it joined under the latest lease by which it wrote `ran/SERVER`.
    under: Revision,
    /// The write on its way to the store, and the revision at which this process had joined.
    pending: Option<PendingWrite<Revision>>,
    /// Until when nothing is written, because the last write failed.
    paused_until: Instant,
}

impl Tenure {
    /// Makes the tenure of a process that has executed nothing.
    pub(super) fn new(process: u64, now: Instant) -> Tenure {
        Tenure {
            process,
            known: Revision::NEVER,
            since: Revision::NEVER,
            under: Revision::NEVER,
            pending: None,
            paused_until: now,
        }
    }

    /// Returns the revision at which this process joined under the first lease of the tenure, if it may execute under
    /// the lease by which it joined at this revision.
    pub(super) fn since(&self, joined: Revision) -> Option<Revision> {
        (self.under == joined).then_some(self.since)
    }

    /// Returns when the key must be written, if it wasn't written under the lease by which this process joined at that
    /// revision, and no write is on its way.
    pub(super) fn due_at(&self, joined: Revision) -> Option<Instant> {
        let is_due = joined > Revision::NEVER && self.under != joined && self.pending.is_none();
        is_due.then_some(self.paused_until)
    }

    /// Returns until when one waits for the write on its way.
    pub(super) fn patience(&self) -> Option<Instant> {
        self.pending.as_ref().map(PendingWrite::end)
    }

    /// Returns the transaction that writes the key of this server, whose own key was written at that revision.
    pub(super) fn transaction(&self, server: u16, written: Revision) -> Transaction {
        let ran = keys::ran(server);
        Transaction::new()
            .compare(keys::server(server), written)
            .compare(ran.clone(), self.known)
            .put(ran.clone(), keys::ran_by(self.process))
            .with_kept_room()
            .or_read(ran)
    }

    /// Notes that this write is on its way.
    pub(super) fn wait_for(&mut self, pending: PendingWrite<Revision>) {
        self.pending = Some(pending);
    }

    /// Notes that another lease was taken. A write on its way under the earlier lease isn't awaited.
    pub(super) fn have_lease(&mut self) {
        self.pending = None;
    }

    /// Notes the outcome of the transaction on its way, if it is known.
    pub(super) fn hear(&mut self, server: u16, now: Instant) {
        let told = self.pending.as_ref().and_then(|it| it.outcome(now));
        let Some(outcome) = told else {
            return;
        };
        if let Some(PendingWrite { write: joined, .. }) = self.pending.take() {
            self.note((server, joined), outcome, now);
        }
    }

    /// Notes the outcome of a transaction of this server, under the lease by which the process joined at that revision.
    fn note(
        &mut self,
        (server, joined): (u16, Revision),
        outcome: Result<Outcome, WriteError>,
        now: Instant,
    ) {
        match outcome {
            Ok(Outcome::Made(revision)) => {
                (self.known, self.under) = (revision, joined);
                if self.since == Revision::NEVER {
                    self.since = joined;
                }
            }
            Ok(Outcome::Lost(reading)) => {
                let ran = reading.get(&keys::ran(server));
                if ran.and_then(|it| keys::process_of(&it.value)) != Some(self.process) {
                    self.since = Revision::NEVER;
                }
                let found = ran.map_or(Revision::NEVER, |it| it.revision);
                // If nobody has written it, the server's own key has changed.
                if found == self.known {
                    self.paused_until = now + PAUSE;
                }
                self.known = found;
            }
            Err(_) => self.paused_until = now + PAUSE,
        }
    }
}

#[cfg(test)]
mod tests {
    use super::*;
    use durkenzo_store::{Embedded, Store};

    const SERVER: u16 = 1;

    /// A process of the server over a store, which joins and leaves without a lease.
    struct Process<'a> {
        store: &'a Embedded,
        tenure: Tenure,
        now: Instant,
        joined: Revision,
    }

    impl Process<'_> {
        fn new(store: &Embedded, process: u64) -> Process<'_> {
            let now = crate::Clock::default().now();
            Process {
                store,
                tenure: Tenure::new(process, now),
                now,
                joined: Revision::NEVER,
            }
        }

        /// Writes the server's key again, because the earlier one has gone with its lease.
        fn join(&mut self) {
            let key = keys::server(SERVER);
            self.store
                .make(Transaction::new().delete(key.clone()))
                .unwrap();
            let put = Transaction::new().put(key, self.tenure.process.to_string());
            self.joined = match self.store.make(put).unwrap() {
                Outcome::Made(revision) => revision,
                Outcome::Lost(_) => unreachable!("nothing is compared"),
            };
            self.tenure.have_lease();
        }

        /// Makes the transaction that is due, and returns its outcome.
        fn sent(&self) -> Result<Outcome, WriteError> {
            let transaction = self.tenure.transaction(SERVER, self.joined);
            self.store.make(transaction)
        }

        fn note(&mut self, outcome: Result<Outcome, WriteError>) {
            self.tenure.note((SERVER, self.joined), outcome, self.now);
        }

        /// Goes on until this process may execute. Returns since when no other one has.
        fn ran(&mut self) -> Revision {
            for _ in 0..3 {
                if let Some(since) = self.tenure.since(self.joined) {
                    return since;
                }
                let outcome = self.sent();
                self.note(outcome);
            }
            panic!("it never may execute")
        }
    }

    fn unknown() -> Result<Outcome, WriteError> {
        Err(WriteError::Unknown("it came late".to_owned()))
    }

    #[test]
    fn a_tenure_goes_on_if_nobody_executed_between_two_leases_or_three() {
        let store = Embedded::in_memory();
        let (mut one, mut another) = (Process::new(&store, 7), Process::new(&store, 8));
        one.join();
        let first = one.joined;
        assert_eq!(one.ran(), first);
        one.join();
        assert_eq!(one.tenure.since(one.joined), None);
        assert_eq!(one.ran(), first);
        // Another process joined, and its lease ended before it executed.
        another.join();
        one.join();
        assert!(one.joined > first);
        assert_eq!(one.ran(), first);
        assert!(matches!(another.sent(), Ok(Outcome::Lost(_))));
    }

    #[test]
    fn a_tenure_begins_anew_if_another_process_executed_between() {
        let store = Embedded::in_memory();
        let (mut one, mut another) = (Process::new(&store, 7), Process::new(&store, 8));
        one.join();
        one.ran();
        another.join();
        let joined = another.joined;
        assert_eq!(another.ran(), joined);
        one.join();
        let joined = one.joined;
        assert_eq!(one.ran(), joined);
        // It goes on from there.
        one.join();
        assert_eq!(one.ran(), joined);
    }

    #[test]
    fn a_transaction_of_unknown_outcome_is_found_by_whom_the_key_names() {
        for is_made in [false, true] {
            let store = Embedded::in_memory();
            let (mut one, mut another) = (Process::new(&store, 7), Process::new(&store, 8));
            let send = |one: &mut Process<'_>| {
                if is_made {
                    assert!(matches!(one.sent(), Ok(Outcome::Made(_))));
                }
                one.note(unknown());
                assert_eq!(one.tenure.since(one.joined), None);
            };
            one.join();
            send(&mut one);
            let first = one.joined;
            assert_eq!(one.ran(), first);
            one.join();
            send(&mut one);
            assert_eq!(one.ran(), first);
            // The lease ends before that is known, and another one executes.
            one.join();
            send(&mut one);
            another.join();
            another.ran();
            one.join();
            let outcome = one.sent();
            one.note(outcome);
            send(&mut one);
            let joined = one.joined;
            assert_eq!(one.ran(), joined);
        }
    }

    #[test]
    fn nothing_is_written_once_another_process_has_joined() {
        let store = Embedded::in_memory();
        let (mut one, mut another) = (Process::new(&store, 7), Process::new(&store, 8));
        one.join();
        one.ran();
        one.join();
        let late = one.tenure.transaction(SERVER, one.joined);
        another.join();
        assert!(matches!(store.make(late), Ok(Outcome::Lost(_))));
        let outcome = one.sent();
        one.note(outcome);
        // It waits until it has joined again.
        let due = one.tenure.due_at(one.joined);
        assert_eq!(due, Some(one.now + PAUSE));
    }
}
