mod action;
mod base;
mod base_pause;
mod destination;
mod lease_reads;
mod lister;
mod preparation;
mod replica_state;
mod retry;
mod rounds;
mod transaction;

use crate::proved::Core;
use crate::recovery::{LogSize, Recovered, RecoveryFault, Unrecovered};
use crate::round::{Round, MOST_BYTES};
use crate::run::{DecidedChange, Origin, Run};
use crate::snapshot_name::SnapshotName;
use crate::work::{NotDone, WorkStep};
use crate::{Came, Elsewhere, Member, Ownership, ShardOptions, StoredRecord};
pub(crate) use action::{Action, Ticket};
use base::{BaseDemand, BaseProgress};
use base_pause::BasePause;
use durkenzo::Stand;
use durkenzo_store::Revision;
use lease_reads::LeaseReads;
pub(crate) use lister::Lister;
use preparation::Preparation;
use replica_state::{ReplicaState, Revisions, TransactionPayload};
use std::collections::{BTreeMap, BTreeSet, VecDeque};
use std::sync::Arc;
use std::time::{Duration, Instant};

/// A shard, with the proved servers that this process runs for it. The servers decide, in rounds. The shard says with
/// [`Action`]s what must be sent, read and told. It does no I/O.
pub(crate) struct Shard {
    number: u16,
    /// The number of this process, with which its clients' numbers begin.
    process: u64,
    /// The only server of this process, unless it has all.
    own: Option<Arc<Member>>,
    /// Whether another number is taken for the process.
    renews: bool,
    /// Whether requests were refused because too many clients are kept.
    is_crowded: bool,
    /// When the record was last read because somebody had seen a later one.
    looked: Option<Instant>,
    /// The revision of the log's head, as it was last known.
    logged: Revision,
    /// The revisions that a transaction with an unknown outcome compared.
    unknown_at: Option<Revisions>,
    stored: StoredRecord,
    /// The records by which its owner was seen to be the owner.
    ownership: Ownership,
    replicas: BTreeMap<u16, ReplicaState>,
    preparation: Preparation,
    /// The store's message when a server last read the shard, if the store gave nothing.
    unanswered: Option<String>,
    /// The servers that no request reaches.
    away: BTreeSet<u16>,
    runs: VecDeque<Run>,
    decided: VecDeque<DecidedChange>,
    round: Option<Round>,
    /// The most bytes that several steps write together, as far as the store takes that.
    most_bytes: usize,
    /// Whether the store took no writes. Then steps that write nothing, or only delete, go first.
    is_unwritten: bool,
    rounds: u64,
    runs_begun: u64,
    tickets: u64,
    /// The length of the log behind its base.
    log: LogSize,
    /// The server that makes a base, and its progress.
    base: Option<(u16, BaseProgress)>,
    /// The snapshot that belongs to that base, if the service has snapshots.
    snapshot: Option<SnapshotName>,
    /// The length of the log when that base began.
    log_before: LogSize,
    /// The pause before the next base after one failed.
    base_pause: BasePause,
    /// The demand for the next one.
    base_demand: BaseDemand,
    /// How many sweeps for replaced keys are under way.
    sweeps: usize,
    shard_options: ShardOptions,
    lease_reads: LeaseReads,
    /// How many callers hold the shard, and whom to tell once nothing is under way.
    holds: usize,
    holders: Vec<Box<dyn FnOnce() + Send>>,
}

/// The pause before a shard is read again after that failed.
const READ_AGAIN: Duration = Duration::from_millis(100);
/// The most runs that wait before further ones are refused. A connection has at most one at each shard.
const MOST_RUNS: usize = 32_768;
/// By this factor, work waits longer while its shard is read.
const READING_WAITS: u32 = 4;
/// How long returned steps wait until they are handed over again.
const PAUSE: Duration = Duration::from_millis(10);

impl Shard {
    pub(crate) fn new(
        number: u16,
        process: u64,
        own: Option<Arc<Member>>,
        shard_options: ShardOptions,
    ) -> Shard {
        Shard {
            number,
            process,
            own,
            renews: false,
            is_crowded: false,
            looked: None,
            logged: Revision::NEVER,
            unknown_at: None,
            stored: StoredRecord::vacant(),
            ownership: Ownership::default(),
            replicas: BTreeMap::new(),
            preparation: Preparation::default(),
            unanswered: None,
            away: BTreeSet::new(),
            runs: VecDeque::new(),
            decided: VecDeque::new(),
            round: None,
            most_bytes: MOST_BYTES,
            is_unwritten: false,
            rounds: 0,
            runs_begun: 0,
            tickets: 0,
            log: LogSize::default(),
            base: None,
            snapshot: None,
            log_before: LogSize::default(),
            base_pause: BasePause::default(),
            base_demand: BaseDemand::default(),
            sweeps: 0,
            shard_options,
            lease_reads: LeaseReads::default(),
            holds: 0,
            holders: Vec::new(),
        }
    }

    /// Returns the record, as it was last seen.
    pub(crate) fn stored(&self) -> &StoredRecord {
        &self.stored
    }

    /// Returns how many bytes its base and its log have, if the server owns it, as far as this process has read it.
    pub(crate) fn bytes_of(&self, server: u16) -> Option<u64> {
        let owner = self.stored.record().and_then(|it| it.owner());
        (owner == Some(server)).then(|| self.log.base.saturating_add(self.log.bytes))
    }

    /// Returns the records by which the owner was seen to be the owner, up to the record that was seen last.
    pub(crate) fn ownership(&self) -> Ownership {
        self.ownership
    }

    /// Notes the record that was seen last.
    fn store(&mut self, stored: StoredRecord) {
        let record = stored.record();
        self.ownership = record.map_or_else(Ownership::default, |it| self.ownership.seen(&it));
        self.stored = stored;
    }

    /// Returns whether requests wait here because the store gave nothing when a server last read the shard.
    pub(crate) fn waits_for_store(&self) -> bool {
        self.unanswered.is_some() && self.is_unread() && !self.runs.is_empty()
    }

    /// Returns how many clients' last requests are kept, by the server here that keeps most.
    pub(crate) fn clients(&mut self) -> usize {
        let cores = self
            .replicas
            .values_mut()
            .filter_map(|replica| match replica {
                ReplicaState::Unread(_) | ReplicaState::Reading(_) => None,
                ReplicaState::Behind(core, _)
                | ReplicaState::Ready(core, _)
                | ReplicaState::Sent(core, ..) => Some(core),
            });
        // A server that can't tell is closed at its next step.
        cores.filter_map(|it| it.clients().ok()).max().unwrap_or(0)
    }

    /// Takes steps of one client, in their order.
    pub(crate) fn take(&mut self, steps: Vec<WorkStep>, now: Instant, actions: &mut Vec<Action>) {
        self.take_run(steps, None, (Revision::NEVER, now), now, actions);
    }

    /// Takes steps that came from another process, and have waited since then.
    pub(crate) fn take_from(
        &mut self,
        steps: Vec<WorkStep>,
        came: Came,
        since: Instant,
        now: Instant,
        actions: &mut Vec<Action>,
    ) {
        self.take_run(steps, Some(came), (came.revision, since), now, actions);
    }

    fn take_run(
        &mut self,
        steps: Vec<WorkStep>,
        came: Option<Came>,
        (after, since): (Revision, Instant),
        now: Instant,
        actions: &mut Vec<Action>,
    ) {
        if self.runs.len() >= MOST_RUNS {
            let refused = |it: WorkStep| Action::Tell(it.work, Err(NotDone::Crowded));
            return actions.extend(steps.into_iter().map(refused));
        }
        self.runs_begun += 1;
        let run = Run {
            origin: Origin {
                run: self.runs_begun,
                since,
                came,
            },
            steps: steps.into(),
            after,
            not_before: None,
            leaves: None,
        };
        self.route_one(run, now, actions);
        if self.round.is_none() {
            self.go_on(now, actions);
        }
    }

    /// Takes back steps that were to go to another server. They wait for a record at this revision.
    pub(crate) fn take_back(
        &mut self,
        steps: Vec<WorkStep>,
        elsewhere: &Elsewhere,
        after: Revision,
        now: Instant,
    ) {
        self.runs_begun += 1;
        self.runs.push_back(Run {
            origin: Origin {
                run: self.runs_begun,
                since: elsewhere.since,
                came: elsewhere.first_came,
            },
            steps: steps.into(),
            after,
            not_before: Some(now + PAUSE),
            leaves: None,
        });
    }

    /// Returns the first number of a process by which the shard still has requests.
    pub(crate) fn first_process(&self) -> u64 {
        let round = self.round.as_ref().map_or(self.process, |it| it.process);
        round.min(self.process)
    }

    /// Makes later requests have clients with this number of the process.
    pub(crate) fn renew(&mut self, process: u64, now: Instant, actions: &mut Vec<Action>) {
        self.process = self.process.max(process);
        self.renews = false;
        self.go_on(now, actions);
    }

    /// Sets whether requests reach the server. If they don't, the server forgets what it has read.
    pub(crate) fn set_away(
        &mut self,
        server: u16,
        is_away: bool,
        now: Instant,
        actions: &mut Vec<Action>,
    ) {
        match is_away {
            true => drop(self.away.insert(server)),
            false => drop(self.away.remove(&server)),
        }
        self.follow_record();
        self.go_on(now, actions);
    }

    /// Lets no further transaction be sent until the shard is released, and tells once none is under way.
    pub(crate) fn hold(&mut self, holder: Box<dyn FnOnce() + Send>, actions: &mut Vec<Action>) {
        self.holds += 1;
        self.holders.push(holder);
        self.tell_holders(actions);
    }

    /// Lets transactions be sent again.
    pub(crate) fn release(&mut self, now: Instant, actions: &mut Vec<Action>) {
        self.holds = self.holds.saturating_sub(1);
        self.go_on(now, actions);
    }

    /// Processes the record that the watch, or a reading, has seen.
    pub(crate) fn see(&mut self, stored: StoredRecord, now: Instant, actions: &mut Vec<Action>) {
        if stored.revision() <= self.stored.revision() {
            return;
        }
        self.store(stored);
        self.follow_record();
        self.prepare(now, actions);
        self.go_on(now, actions);
    }

    /// Makes each ready server use the last record, and drops those that it doesn't name.
    pub(super) fn follow_record(&mut self) {
        let (stored, away, round) = (&self.stored, &self.away, &self.round);
        // This server's reading shows the outcome of the round.
        let finds_out = round.as_ref().is_some_and(|it| it.may_be_made);
        let stays = |it: &u16| finds_out || stored.names(*it) && !away.contains(it);
        self.replicas
            .retain(|server, replica| matches!(replica, ReplicaState::Sent(..)) || stays(server));
        // Until the record changed, the transaction with an unknown outcome may be made, and the earlier owner may
        // write. That is read.
        let is_unknown = self.unknown_at.is_some();
        let next = stored.record().and_then(|it| match it.stand {
            Stand::Forwarding { next, .. } => Some(next),
            Stand::Vacant
            | Stand::Serving(_)
            | Stand::Prepared { .. }
            | Stand::Taken { .. }
            | Stand::Paused(_) => None,
        });
        let mut changed = Vec::new();
        for (server, replica) in &mut self.replicas {
            let ReplicaState::Ready(core, at) = replica else {
                continue;
            };
            if at.stood >= stored.revision() {
                continue;
            }
            changed.push(*server);
            if is_unknown || next == Some(*server) {
                continue;
            }
            match core.record(stored.bytes(), stored.revision()) {
                Ok(()) => at.stood = stored.revision(),
                Err(_) => *replica = ReplicaState::Unread(None),
            }
        }
        for server in changed {
            match is_unknown || next == Some(server) {
                true => self.fall_behind(server),
                false => self.round.iter_mut().for_each(|it| it.take_back(server)),
            }
        }
        // A server that reads again knows nothing of the base that it was making.
        let maker = self.base.and_then(|it| self.replicas.get(&it.0));
        let reads = maker.is_none_or(|it| it.reads_from().is_some());
        self.forget_base(|_| reads);
    }

    /// Notes that the shard was read for a server. The result of a reading from before the server was forgotten is too
    /// old.
    pub(crate) fn on_read(
        &mut self,
        ticket: Ticket,
        read: Result<Recovered, Unrecovered>,
        now: Instant,
        actions: &mut Vec<Action>,
    ) {
        let Ticket { server, number } = ticket;
        if !matches!(self.replicas.get(&server), Some(ReplicaState::Reading(it)) if *it == number) {
            return;
        }
        match read {
            Ok(read) => {
                self.preparation.note_read(now);
                self.make_ready(server, read);
                if std::mem::take(&mut self.base_demand.is_wanted) {
                    self.want_base(self.base_demand.is_alone, now, actions);
                }
            }
            Err(Unrecovered { kept, fault }) => {
                self.on_unread(server, kept, fault, (now, actions));
            }
        }
        self.prepare(now, actions);
        self.go_on(now, actions);
    }

    /// Makes the server read again later, or ends the waiting work if that wouldn't help.
    fn on_unread(
        &mut self,
        server: u16,
        kept: Option<Core>,
        fault: RecoveryFault,
        (now, actions): (Instant, &mut Vec<Action>),
    ) {
        match fault {
            RecoveryFault::Later => {
                self.preparation.note_fault();
                let again = ReplicaState::later(kept, now + READ_AGAIN);
                self.replicas.insert(server, again);
            }
            RecoveryFault::Unanswered(told) => {
                self.unanswered = Some(told);
                let again = ReplicaState::later(kept, now + READ_AGAIN);
                self.replicas.insert(server, again);
            }
            RecoveryFault::Ended(why) => {
                self.base_demand.is_wanted = false;
                self.replicas.insert(server, ReplicaState::Unread(None));
                self.give_up(&NotDone::Stopped, actions);
                actions.push(Action::StoreEnded(why));
            }
            RecoveryFault::Damaged(why) => {
                self.base_demand.is_wanted = false;
                // The next owner reads ahead. It doesn't read all of a damaged log again at once.
                let again = ReplicaState::later(None, now + READ_AGAIN);
                self.replicas.insert(server, again);
                self.tell_prepared(actions);
                self.give_up(&NotDone::Damaged(why), actions);
            }
        }
    }

    /// Makes the server ready with the result of its reading.
    fn make_ready(&mut self, server: u16, read: Recovered) {
        let Recovered {
            core,
            stored,
            logged,
            log,
        } = read;
        // The batches that were read may contain deletions.
        self.base_demand.has_freed |= log.batches_read > 0;
        self.log.note(log);
        self.unanswered = None;
        let stood = stored.revision();
        let at = Revisions { stood, logged };
        self.replicas.insert(server, ReplicaState::Ready(core, at));
        // Transactions that compare other revisions can't be made any more, and those that were made are read.
        self.unknown_at = self.unknown_at.filter(|it| *it == at);
        self.note_head(logged);
        if stood > self.stored.revision() {
            self.store(stored);
        }
        self.follow_record();
    }

    /// Refuses work that has waited for so long, if no transaction is under way for it.
    pub(crate) fn tick(&mut self, now: Instant, wait: Duration, actions: &mut Vec<Action>) {
        let is_sent = self.is_sent();
        let is_idle = self.runs.is_empty() && self.decided.is_empty() && self.round.is_none();
        if is_idle || is_sent || self.holds > 0 {
            return;
        }
        let reads_again = |it: &ReplicaState| it.reads_from().flatten().is_some_and(|at| at <= now);
        if self.replicas.values().any(reads_again) {
            self.go_on(now, actions);
        }
        let is_reading = self
            .replicas
            .values()
            .any(|it| matches!(it, ReplicaState::Reading(_)));
        let why = self.why_not();
        let may_soon = matches!(why, NotDone::Busy | NotDone::Unread | NotDone::NotMade(_));
        // Another server reads the shard, and will soon execute.
        let wait = match is_reading && may_soon {
            true => READING_WAITS * wait,
            false => wait,
        };
        if self.round.as_ref().is_some_and(|it| now >= it.since + wait) {
            self.give_up_round(&why, actions);
        }
        // Work for another process is refused by the part that can't reach that process, and that says why.
        self.route(now, actions);
        let (late, runs) = std::mem::take(&mut self.runs)
            .into_iter()
            .partition(|it: &Run| it.is_due(now) && now >= it.origin.since + wait);
        self.runs = runs;
        for step in late.into_iter().flat_map(|it: Run| it.steps) {
            actions.push(Action::Tell(step.work, Err(why.clone())));
        }
        self.look(now, actions);
        self.go_on(now, actions);
    }

    /// Returns whether something waits that a later tick may go on with or refuse, depending on whether the store is
    /// full; or whether the server of this process is the next owner, which may have to read again.
    pub(crate) fn has_waiting(&self, is_full: bool) -> bool {
        let is_idle = self.runs.is_empty() && self.decided.is_empty() && self.round.is_none();
        !is_idle || self.is_next_here() || self.is_base_due(is_full)
    }

    /// Returns why no server executes.
    fn why_not(&self) -> NotDone {
        let record = self.stored.record();
        let owner = record.and_then(|it| it.owner());
        if self.is_crowded {
            return NotDone::TooManyClients;
        }
        match record.map(|it| it.stand) {
            Some(Stand::Paused(_)) => NotDone::Paused,
            Some(Stand::Vacant) => NotDone::Vacant,
            Some(_) => match owner.filter(|it| !self.is_reached(*it)) {
                Some(owner) => NotDone::Away(owner),
                None if self.is_unread() => match &self.unanswered {
                    Some(told) => NotDone::NotMade(told.clone()),
                    None => NotDone::Unread,
                },
                None if self.makes_room() => {
                    NotDone::Full("the store is full, and makes room now".to_owned())
                }
                None => NotDone::Busy,
            },
            None => NotDone::Damaged(format!("the record of shard {}", self.number)),
        }
    }

    /// Returns whether a server must still read the shard.
    fn is_unread(&self) -> bool {
        let mut replicas = self.replicas.values();
        replicas.any(|it| it.reads_from().is_some() || matches!(it, ReplicaState::Reading(_)))
    }

    /// Refuses all waiting work.
    pub(crate) fn give_up(&mut self, why: &NotDone, actions: &mut Vec<Action>) {
        self.give_up_round(why, actions);
        for step in self.runs.drain(..).flat_map(|it| it.steps) {
            actions.push(Action::Tell(step.work, Err(why.clone())));
        }
    }

    /// Refuses the work in the round. Work that waits at a server won't be sent any more, and work that was sent may be
    /// made.
    pub(super) fn give_up_round(&mut self, why: &NotDone, actions: &mut Vec<Action>) {
        for it in std::mem::take(&mut self.decided) {
            actions.push(Action::Tell(it.step.work, Err(why.clone())));
        }
        let Some(round) = self.round.take() else {
            return;
        };
        self.unknown_at = None;
        let mut may_be_made = round.may_be_made;
        for server in round.waits_at() {
            match self.replicas.get(&server) {
                Some(ReplicaState::Sent(..)) => may_be_made = true,
                _ => self.fall_behind(server),
            }
        }
        let why = match (may_be_made, why) {
            (true, NotDone::Unknown(_)) | (false, _) => why.clone(),
            (true, NotDone::NotMade(told)) => NotDone::Unknown(told.clone()),
            (true, _) => NotDone::Unknown(why.to_string()),
        };
        for (work, outcome) in round.given_up(&why) {
            actions.push(Action::Tell(work, outcome));
        }
    }

    pub(super) fn tell_holders(&mut self, actions: &mut Vec<Action>) {
        if self.holds > 0 && !self.is_sent() {
            actions.extend(self.holders.drain(..).map(Action::Hold));
        }
    }
}
