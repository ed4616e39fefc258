use super::{Action, ReplicaState, Shard, Ticket};
use crate::base_parts::KeyedParts;
use crate::decision::Base;
use crate::keys;
use crate::recovery::{LogSize, PassedKey, BATCH_BYTES};
use crate::snapshot_name::SnapshotName;
use durkenzo::Stand;
use std::time::Instant;

/// The progress of a base.
#[derive(Clone, Copy, Debug, PartialEq, Eq)]
pub(super) enum BaseProgress {
    /// Its parts are being written: those of the base whose ticket has this number.
    Writes(u64),
    /// A part wasn't written. Once no transaction is under way, the server catches up with the log, and then makes no
    /// base.
    Failed,
    /// All parts are written, so the next transaction names it.
    Names,
    /// The transaction with this number names it.
    Named(u64),
}

/// The demand for a base.
#[derive(Debug, Default)]
pub(super) struct BaseDemand {
    /// Whether a base must begin as soon as its server has read the shard.
    pub(super) is_wanted: bool,
    /// Whether it must make room. Then no transaction that takes room is sent meanwhile.
    pub(super) is_alone: bool,
    /// Whether keys were deleted since the last base.
    pub(super) has_freed: bool,
    /// Whether keys had been deleted when the present base began. Their batches aren't replaced until it is named.
    had_freed: bool,
}

/// A log has at least so many bytes before it gets another base because of their number.
const LEAST_BYTES: u64 = 1 << 20;
/// So many times as long a log may become while its shard moves, because the next owner reads the log there. If a base
/// replaces what the next owner lacks, it must read that base.
const MOVING: u64 = 4;

impl Shard {
    /// Begins a base, if one is due.
    pub(crate) fn begin_base(&mut self, is_full: bool, now: Instant, actions: &mut Vec<Action>) {
        let may_begin = self.base.is_none() && self.base_pause.is_over(now);
        if self.base_demand.is_wanted || self.is_base_due(is_full) && may_begin {
            self.want_base(is_full, now, actions);
        }
    }

    /// Returns whether the log must get another base: it is long, or the store is full and keys were deleted.
    pub(super) fn is_base_due(&self, is_full: bool) -> bool {
        self.base_demand.is_wanted || self.is_log_long() || is_full && self.base_demand.has_freed
    }

    /// Returns whether the log is long enough for another base.
    fn is_log_long(&self) -> bool {
        let LogSize {
            base,
            batches,
            bytes,
        } = self.log;
        let by_number = batches * BATCH_BYTES;
        let times = if self.is_moving() { MOVING } else { 1 };
        let most_batches = self.shard_options.most_batches.saturating_mul(times);
        let are_many = batches >= most_batches && by_number >= times * base;
        are_many || bytes + by_number >= times * LEAST_BYTES.max(2 * base)
    }

    /// Returns whether the shard has a next owner.
    fn is_moving(&self) -> bool {
        self.stored.record().is_some_and(|it| match it.stand {
            Stand::Prepared { .. } | Stand::Forwarding { .. } => true,
            Stand::Vacant | Stand::Serving(_) | Stand::Taken { .. } | Stand::Paused(_) => false,
        })
    }

    /// Begins a base, if the server that executes is in this process and makes none. If the server hasn't read the
    /// shard, it reads the shard first. If the store is full, no transaction that takes room is sent until the base is
    /// over. Otherwise a refused transaction would make the server read again, and so begin its base again.
    pub(crate) fn want_base(&mut self, is_full: bool, now: Instant, actions: &mut Vec<Action>) {
        self.base_demand.is_wanted = false;
        if self.base.is_some() {
            self.base_demand.is_alone |= is_full;
            return;
        }
        self.base_demand.is_alone = is_full;
        let Some(server) = self.base_server() else {
            return;
        };
        let core = match self.replicas.get_mut(&server) {
            Some(ReplicaState::Ready(core, _)) => core,
            Some(ReplicaState::Sent(core, ..)) if !is_full => core,
            // The transaction on its way may be refused, so a base begins after it.
            Some(ReplicaState::Sent(..)) => {
                self.base_demand.is_wanted = true;
                return;
            }
            Some(ReplicaState::Unread(_) | ReplicaState::Behind(..) | ReplicaState::Reading(_))
            | None => {
                self.base_demand.is_wanted = true;
                self.ready_core(server, now, actions);
                return;
            }
        };
        match core.base() {
            Ok(Some(base)) => self.begin_writing(server, base, actions),
            Ok(None) => {}
            // The log stays as long as it is, and it is tried again.
            Err(_) => self.base_pause.begin(now),
        }
    }

    /// Has the parts of the base written that the server has begun, and its snapshot.
    fn begin_writing(&mut self, server: u16, base: Base, actions: &mut Vec<Action>) {
        let Base {
            number,
            parts,
            snapshot,
        } = base;
        // Keys that are deleted from now on need another base.
        self.base_demand.had_freed = std::mem::take(&mut self.base_demand.has_freed);
        self.tickets += 1;
        let ticket = Ticket {
            server,
            number: self.tickets,
        };
        self.base = Some((server, BaseProgress::Writes(ticket.number)));
        let keyed = (0..).zip(parts);
        let keyed = keyed.map(|(place, it)| (keys::part(self.number, number, place), it));
        let mut keyed: KeyedParts = keyed.collect();
        self.snapshot = snapshot.map(|bytes| {
            let attempt = (number, self.process, ticket.number);
            let (name, parts) = SnapshotName::parts_of(self.number, attempt, &bytes);
            keyed.extend(parts);
            name
        });
        self.log.base = keyed.iter().map(|it| it.1.len() as u64).sum();
        self.log_before = self.log;
        actions.push(Action::WriteBase(ticket, keyed));
    }

    /// Returns whether a base is being made, or the keys that it replaced aren't deleted yet.
    pub(crate) fn makes_base(&self) -> bool {
        self.base.is_some() || self.base_demand.is_wanted || self.sweeps > 0
    }

    /// Returns whether a base is being made, or must be made soon, in order to make room; or whether the keys that it
    /// replaced aren't deleted yet, because a server that reads again meanwhile wouldn't delete them.
    pub(super) fn makes_room(&self) -> bool {
        self.base_demand.is_alone && self.makes_base()
    }

    /// Returns the server that makes bases, if it is in this process and isn't away.
    fn base_server(&self) -> Option<u16> {
        let owner = self.stored.record().and_then(|it| it.owner());
        let is_other = |it: &u16| self.me().is_some_and(|me| me != *it);
        owner.filter(|it| !is_other(it) && !self.away.contains(it))
    }

    /// Returns whether a base is still being made, or the last one wasn't written and this process would make the next.
    pub(crate) fn lacks_base(&self) -> bool {
        self.makes_base() || (self.base_pause.is_some() && self.base_server().is_some())
    }

    /// Notes whether the parts of the base with this ticket were written. A base that was given up meanwhile doesn't
    /// count.
    pub(crate) fn on_base(
        &mut self,
        ticket: Ticket,
        is_written: bool,
        now: Instant,
        actions: &mut Vec<Action>,
    ) {
        let Ticket { server, number } = ticket;
        if self.base != Some((server, BaseProgress::Writes(number))) {
            return;
        }
        let Some(ReplicaState::Ready(core, _) | ReplicaState::Sent(core, ..)) =
            self.replicas.get_mut(&server)
        else {
            self.forget_base(|_| true);
            return;
        };
        if is_written && core.parts_made().is_ok() {
            self.base = Some((server, BaseProgress::Names));
        } else {
            self.base = Some((server, BaseProgress::Failed));
            self.base_pause.begin(now);
            self.end_failed_base(server);
        }
        self.go_on(now, actions);
    }

    /// Forgets the base that is being made, if such a server makes it, because it may never be named. Keys that were
    /// deleted before need another base.
    pub(super) fn forget_base(&mut self, is_meant: impl FnOnce(u16) -> bool) {
        if self.base.take_if(|it| is_meant(it.0)).is_some() {
            self.base_demand.has_freed |= std::mem::take(&mut self.base_demand.had_freed);
        }
    }

    /// Notes that the base that was being made is named.
    pub(super) fn end_base(&mut self) {
        (self.base, self.base_demand.had_freed) = (None, false);
        self.base_pause.end();
    }

    /// Makes a server whose base has failed catch up, if no transaction of it is under way. It forgets that base.
    pub(super) fn end_failed_base(&mut self, server: u16) {
        let is_ready = matches!(self.replicas.get(&server), Some(ReplicaState::Ready(..)));
        if is_ready && self.base == Some((server, BaseProgress::Failed)) {
            self.fall_behind(server);
        }
    }

    /// Sends the transaction that names a base, if nothing else must be sent.
    pub(super) fn name_base(&mut self, actions: &mut Vec<Action>) {
        if let Some((server, BaseProgress::Names)) = self.base {
            if self.send(server, actions).is_err() {
                self.read_again(server);
            }
        }
    }

    /// Deletes those of the found keys that the base has replaced.
    pub(crate) fn on_swept(
        &mut self,
        server: u16,
        found: Vec<PassedKey>,
        actions: &mut Vec<Action>,
    ) {
        self.sweeps = self.sweeps.saturating_sub(1);
        let Some(
            ReplicaState::Behind(core, _)
            | ReplicaState::Ready(core, _)
            | ReplicaState::Sent(core, ..),
        ) = self.replicas.get_mut(&server)
        else {
            return;
        };
        let mut behind = Vec::new();
        for (passing, key) in found {
            if let Ok(true) = core.is_behind(passing) {
                behind.push(key);
            }
        }
        actions.push(Action::Delete(behind));
    }
}

#[cfg(test)]
#[allow(clippy::disallowed_methods)]
mod tests {
    use super::*;
    use crate::recovery::{ServerPlace, Source};
    use crate::shard::Revisions;
    use crate::shard_service::{ShardService, Texts};
    use crate::work::WorkOutcome;
    use crate::{
        recovery, Begin, ControlCommand, Durable, DurableControl, MapReply, MapRequest, NotDone,
        Range, ShardOptions, StoredRecord, Work, WorkStep,
    };
    use durkenzo_store::{Embedded, Revision, Store, WriteError};
    use std::sync::mpsc::{self, Receiver, Sender};
    use std::sync::Arc;

    const LINE: &str = concat!(
        r#"{"version":1,"bounds":[""],"servers":[{"id":1,"domain":0,"capacity":9}],"#,
        r#""groups":[{"limit":9,"down":9}],"shards":[{"group":0,"load":1,"cap":1}],"#,
        r#""ops":1,"kept":9,"ceiling":99,"workers":1}"#
    );

    /// The place of the only server of the only shard.
    const PLACE: ServerPlace = ServerPlace {
        server: 1,
        shard: 0,
        count: 1,
    };

    fn source(store: &dyn Store) -> Source<'_> {
        let service = &Texts;
        Source { store, service }
    }

    /// Returns a store with a shard of server 1.
    fn written() -> Arc<dyn Store> {
        let store: Arc<dyn Store> = Arc::new(Embedded::in_memory());
        let open = Durable::open(store.clone(), 1, ShardOptions::default(), Box::new(|| {}));
        let mut control = DurableControl::lead(Arc::new(open.unwrap()), LINE).unwrap();
        control.command(ControlCommand::Assign(0, 1)).unwrap();
        store
    }

    #[test]
    fn a_base_ends_where_its_server_reads_anew() {
        let (store, now) = (written(), Instant::now());
        let mut shard = Shard::new(0, 1, None, ShardOptions::default());
        let read = recovery::recover(source(&*store), None, PLACE)
            .map_err(|it| it.fault)
            .unwrap();
        let (bytes, stood) = (read.stored.bytes().to_vec(), read.stored.revision());
        let logged = read.logged;
        shard.replicas.insert(1, ReplicaState::Reading(1));
        let ticket = Ticket {
            server: 1,
            number: 1,
        };
        shard.on_read(ticket, Ok(read), now, &mut Vec::new());
        shard.base = Some((1, BaseProgress::Writes(2)));
        // The record changes while the outcome of a transaction isn't known.
        shard.unknown_at = Some(Revisions { stood, logged });
        let changed = StoredRecord::new(bytes, Revision(stood.0 + 1));
        shard.see(changed, now, &mut Vec::new());
        assert!(matches!(
            shard.replicas.get(&1),
            Some(ReplicaState::Behind(..))
        ));
        assert_eq!(shard.base, None);
    }

    #[test]
    fn a_base_ends_where_its_server_could_not_list() {
        let (store, now) = (written(), Instant::now());
        let (mut shard, mut actions) =
            (Shard::new(0, 1, None, ShardOptions::default()), Vec::new());
        let pair = store.read(&[&keys::record(0)]).unwrap().pairs.remove(0);
        let (stood, logged) = (pair.revision, Revision::NEVER);
        shard.see(StoredRecord::new(pair.value, stood), now, &mut actions);
        // A server that has read nothing refuses to list.
        let core = Texts.server(PLACE).unwrap();
        let ready = ReplicaState::Ready(core, Revisions { stood, logged });
        shard.replicas.insert(1, ready);
        shard.base = Some((1, BaseProgress::Writes(2)));
        let (count, counted) = step(Begin::Count);
        shard.take(vec![count], now, &mut actions);
        assert_eq!(shard.base, None);
        carried_out((&mut shard, &*store), now, actions);
        assert_eq!(counted.recv().unwrap(), Ok(vec![MapReply::Count(0)]));
    }

    struct Asking(Sender<WorkOutcome>);

    impl Work for Asking {
        fn decide(&mut self, _held: Vec<MapReply>) -> Vec<MapRequest> {
            Vec::new()
        }

        fn is_wanted(&self) -> bool {
            true
        }

        fn spell(&self) -> Vec<u8> {
            Vec::new()
        }

        fn answered(self: Box<Self>, _answer: &[u8]) {}

        fn end(self: Box<Self>, outcome: WorkOutcome) {
            self.0.send(outcome).unwrap();
        }
    }

    fn step(begin: Begin) -> (WorkStep, Receiver<WorkOutcome>) {
        let (tell, told) = mpsc::channel();
        let work = Box::new(Asking(tell));
        (WorkStep { begin, work }, told)
    }

    /// Carries out the shard's actions, except for the transaction that names a base. Returns the ticket of that.
    fn carried_out(
        (shard, store): (&mut Shard, &dyn Store),
        now: Instant,
        mut actions: Vec<Action>,
    ) -> Option<Ticket> {
        let mut naming = None;
        while let Some(action) = actions.pop() {
            match action {
                Action::Submit(ticket, transaction) if transaction.compares.len() == 1 => {
                    naming = Some(ticket);
                }
                Action::Submit(ticket, transaction) => {
                    let outcome = store.make(transaction);
                    shard.on_outcome(ticket, outcome, now, &mut actions);
                }
                Action::Read(ticket, kept) => {
                    let read = recovery::recover(source(store), kept, PLACE);
                    shard.on_read(ticket, read, now, &mut actions);
                }
                Action::WriteBase(ticket, _) => shard.on_base(ticket, true, now, &mut actions),
                Action::Tell(work, outcome) => work.end(outcome),
                _ => panic!("nothing else is to be done"),
            }
        }
        naming
    }

    #[test]
    fn keys_are_listed_anew_after_a_base_of_which_it_is_unknown_whether_it_is_named() {
        let (store, now) = (written(), Instant::now());
        let (mut shard, mut actions) =
            (Shard::new(0, 1, None, ShardOptions::default()), Vec::new());
        let pair = store.read(&[&keys::record(0)]).unwrap().pairs.remove(0);
        let stored = StoredRecord::new(pair.value, pair.revision);
        shard.see(stored, now, &mut actions);
        let put = MapRequest::Put(b"key".as_slice().into(), b"text".to_vec());
        let (write, written) = step(Begin::Write(vec![put]));
        shard.take(vec![write], now, &mut actions);
        carried_out((&mut shard, &*store), now, actions);
        assert_eq!(written.recv().unwrap(), Ok(vec![MapReply::Done]));
        let mut actions = Vec::new();
        shard.want_base(false, now, &mut actions);
        let naming = carried_out((&mut shard, &*store), now, actions).expect("a base");

        let (low, high, most) = (Box::from([]), None, 9);
        let (scan, scanned) = step(Begin::Scan(Range { low, high, most }));
        let mut actions = Vec::new();
        shard.take(vec![scan], now, &mut actions);
        let unknown = Err(WriteError::Unknown("a test".to_owned()));
        shard.on_outcome(naming, unknown, now, &mut actions);
        carried_out((&mut shard, &*store), now, actions);
        let text = Box::new(MapReply::Text(b"text".to_vec()));
        let found = MapReply::Pair(b"key".as_slice().into(), text);
        assert_eq!(scanned.recv().unwrap(), Ok(vec![found]));
    }

    #[test]
    fn what_is_deleted_gets_another_base_after_one_that_a_refused_write_ends() {
        let (store, now) = (written(), Instant::now());
        let (mut shard, mut actions) =
            (Shard::new(0, 1, None, ShardOptions::default()), Vec::new());
        let pair = store.read(&[&keys::record(0)]).unwrap().pairs.remove(0);
        let stored = StoredRecord::new(pair.value, pair.revision);
        shard.see(stored, now, &mut actions);
        let put = || MapRequest::Put(b"key".as_slice().into(), b"text".to_vec());
        for request in [put(), MapRequest::Delete(b"key".as_slice().into())] {
            let (write, written) = step(Begin::Write(vec![request]));
            shard.take(vec![write], now, &mut actions);
            carried_out((&mut shard, &*store), now, std::mem::take(&mut actions));
            assert_eq!(written.recv().unwrap(), Ok(vec![MapReply::Done]));
        }
        // Its parts are on their way. Other writes go on, because the store isn't known to be full.
        shard.want_base(false, now, &mut Vec::new());
        assert!(matches!(shard.base, Some((1, BaseProgress::Writes(_)))));
        let (write, written) = step(Begin::Write(vec![put()]));
        shard.take(vec![write], now, &mut actions);
        let Some(Action::Submit(ticket, _)) = actions.pop() else {
            panic!("nothing is written")
        };
        let full = Err(WriteError::Full("a test".to_owned()));
        shard.on_outcome(ticket, full, now, &mut actions);
        carried_out((&mut shard, &*store), now, std::mem::take(&mut actions));
        assert!(matches!(written.recv().unwrap(), Err(NotDone::Full(_))));
        assert_eq!(shard.base, None);
        shard.begin_base(true, now, &mut actions);
        let naming = carried_out((&mut shard, &*store), now, actions);
        assert!(naming.is_some() && shard.makes_room());
    }
}
