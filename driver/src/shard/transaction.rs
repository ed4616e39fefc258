use super::base::BaseProgress;
use super::{Action, ReplicaState, Revisions, Shard, Ticket, TransactionPayload};
use crate::decision::ServerTransaction;
use crate::keys;
use crate::lease_clock::Moment;
use crate::proved::Core;
use crate::round::Round;
use crate::snapshot_name::SnapshotName;
use crate::work::NotDone;
use crate::ServerFault;
use durkenzo_store::{Outcome, Revision, Transaction, WriteError};
use std::time::Instant;

impl Shard {
    pub(super) fn is_sent(&self) -> bool {
        self.replicas
            .values()
            .any(|it| matches!(it, ReplicaState::Sent(..)))
    }

    /// Sends the transaction that waits at the server.
    pub(super) fn send(&mut self, server: u16, actions: &mut Vec<Action>) -> Result<(), u16> {
        let Some(ReplicaState::Ready(core, _)) = self.replicas.get_mut(&server) else {
            return Ok(());
        };
        if !core.flush().map_err(|_| server)? {
            return Ok(());
        }
        let sent = core.sending().map_err(|_| server)?;
        let only_reads = self.round.as_ref().is_some_and(Round::only_reads);
        if sent.head.is_empty() && only_reads && self.is_leased() {
            return self.answer_by_lease(server);
        }
        self.tickets += 1;
        let number = self.tickets;
        let payload = self.payload_of(&sent);
        if let Some(ReplicaState::Ready(core, at)) = self.replicas.remove(&server) {
            self.replicas
                .insert(server, ReplicaState::Sent(core, at, number, payload));
        }
        match payload {
            TransactionPayload::Reads => {}
            TransactionPayload::Batch(_) => {
                self.log.batches += 1;
                self.log.bytes += sent.batch.len() as u64;
            }
            TransactionPayload::Base => {
                self.base = Some((server, BaseProgress::Named(number)));
                self.log.batches = self.log.batches.saturating_sub(self.log_before.batches);
                self.log.bytes = self.log.bytes.saturating_sub(self.log_before.bytes);
            }
        }
        // A transaction that only names a base compares only the head.
        self.note_sent(payload != TransactionPayload::Base);
        let ticket = Ticket { server, number };
        actions.push(Action::Submit(ticket, self.transaction(sent)));
        Ok(())
    }

    fn payload_of(&self, sent: &ServerTransaction) -> TransactionPayload {
        match (sent.number, sent.head.is_empty()) {
            (0, true) => TransactionPayload::Reads,
            (0, false) => TransactionPayload::Base,
            _ => TransactionPayload::Batch(self.round.as_ref().map_or(0, |it| it.number)),
        }
    }

    /// Returns the transaction that a server sends.
    fn transaction(&self, sent: ServerTransaction) -> Transaction {
        let (record, head) = (keys::record(self.number), keys::head(self.number));
        let mut transaction = Transaction::new().compare(head.clone(), sent.logged);
        // A transaction that only names a base compares only the head.
        if sent.number > 0 || sent.head.is_empty() {
            transaction = transaction.compare(record, sent.stood);
        }
        if let Some(name) = self.snapshot_named(&sent.head) {
            transaction = transaction.put(keys::snapshot(self.number), name.bytes());
        }
        if !sent.head.is_empty() {
            transaction = transaction.put(head, sent.head);
        }
        if sent.number > 0 {
            transaction = transaction.put(keys::batch(self.number, sent.number), sent.batch);
        }
        // A base makes room once it is named, and deletions do once a base replaces their batches.
        match sent.number == 0 || self.round.as_ref().is_some_and(Round::frees) {
            true => transaction.with_kept_room(),
            false => transaction,
        }
    }

    /// Returns the snapshot that belongs to the base which this head is the first to name, if there is one.
    fn snapshot_named(&self, head: &[u8]) -> Option<SnapshotName> {
        let (_, progress) = self.base?;
        match progress {
            BaseProgress::Names | BaseProgress::Named(_) => {
                self.snapshot.filter(|it| it.is_of(head))
            }
            BaseProgress::Writes(_) | BaseProgress::Failed => None,
        }
    }

    /// Processes the outcome of a transaction.
    pub(crate) fn on_outcome(
        &mut self,
        ticket: Ticket,
        outcome: Result<Outcome, WriteError>,
        now: Instant,
        actions: &mut Vec<Action>,
    ) {
        let server = ticket.server;
        let (core, at, payload) = match self.replicas.remove(&server) {
            Some(ReplicaState::Sent(core, at, number, payload)) if number == ticket.number => {
                (core, at, payload)
            }
            other => {
                self.replicas.extend(other.map(|it| (server, it)));
                return;
            }
        };
        let sent_at = self.lease_reads.take_sent();
        match outcome {
            Ok(Outcome::Made(revision)) => {
                self.on_sent_made(ticket, (core, at, payload), (revision, sent_at), actions);
            }
            Ok(Outcome::Lost(_)) => self.lose(server, core),
            Err(WriteError::Unknown(_)) => {
                self.note_may_be_made(at, payload);
                self.lose(server, core);
            }
            Err(error) => {
                self.lose(server, core);
                match payload {
                    // Nothing of the round was sent, so it goes on.
                    TransactionPayload::Base => self.base_pause.begin(now),
                    TransactionPayload::Reads | TransactionPayload::Batch(_) => {
                        self.refused_by_store(&error, actions)
                    }
                }
                note_ended(&error, actions);
            }
        }
        self.follow_record();
        self.go_on(now, actions);
    }

    /// Makes the server go on from its transaction, which was sent then and made at this revision.
    fn on_sent_made(
        &mut self,
        ticket: Ticket,
        (mut core, mut at, payload): (Core, Revisions, TransactionPayload),
        (revision, sent_at): (Revision, Option<Moment>),
        actions: &mut Vec<Action>,
    ) {
        let server = ticket.server;
        if self.on_made(&mut core, revision).is_err() {
            // It was made. A server that reads again tells that.
            self.note_may_be_made(at, payload);
            return self.read_again(server);
        }
        if payload != TransactionPayload::Reads {
            at.logged = revision;
            self.base_demand.has_freed |= self.round.as_ref().is_some_and(Round::frees);
            self.logged = self.logged.max(revision);
            // Copies that come late compare the earlier state.
            self.unknown_at = None;
        }
        self.lease_reads.note_held(at, sent_at);
        self.replicas.insert(server, ReplicaState::Ready(core, at));
        self.end_failed_base(server);
        if self.base == Some((server, BaseProgress::Named(ticket.number))) {
            self.end_base();
            self.sweeps += 1;
            actions.push(Action::Sweep(server));
        }
    }

    /// Notes the answers of the requests that were made, and returns how many there are.
    pub(super) fn on_made(
        &mut self,
        core: &mut Core,
        revision: Revision,
    ) -> Result<u64, ServerFault> {
        let answers = core.made(revision)?;
        let count = answers.len() as u64;
        let Some(round) = &mut self.round else {
            return Ok(count);
        };
        for answer in answers {
            if let Some(request) = round.request_by(answer.client, answer.number) {
                request.reply = Some(answer.reply);
            }
        }
        Ok(count)
    }

    /// Makes the server forget what it has read. Requests that it held must be decided again.
    pub(super) fn read_again(&mut self, server: u16) {
        self.begin_anew(server, ReplicaState::Unread(None));
    }

    /// Makes the server read the batches that it lacks, because its transaction wasn't made, or isn't known to be made.
    fn lose(&mut self, server: u16, core: Core) {
        self.begin_anew(server, ReplicaState::lost(core));
    }

    /// Makes the server read the batches that it lacks, if it decides now. Requests that it held must be decided again.
    pub(super) fn fall_behind(&mut self, server: u16) {
        match self.replicas.remove(&server) {
            Some(ReplicaState::Ready(core, _)) => self.lose(server, core),
            other => self.replicas.extend(other.map(|it| (server, it))),
        }
    }

    /// Makes the server read, from the position in this state. Requests that it held must be decided again, and its
    /// base is forgotten.
    fn begin_anew(&mut self, server: u16, state: ReplicaState) {
        self.forget_base(|it| it == server);
        self.replicas.insert(server, state);
        self.round.iter_mut().for_each(|it| it.take_back(server));
    }

    /// Notes that a batch with these compares may be made. The batches that the server reads tell whether its round was
    /// made.
    fn note_may_be_made(&mut self, at: Revisions, payload: TransactionPayload) {
        let TransactionPayload::Batch(number) = payload else {
            return;
        };
        self.unknown_at = Some(at);
        let round = self.round.as_mut().filter(|it| it.number == number);
        round.into_iter().for_each(|it| it.may_be_made = true);
    }

    /// Handles the store's answer that the transaction won't be made: nothing of the round is. If the store takes other
    /// transactions, only the writes end with this error.
    fn refused_by_store(&mut self, error: &WriteError, actions: &mut Vec<Action>) {
        let told = error.to_string();
        let why = match error {
            WriteError::Full(_) => NotDone::Full(told),
            WriteError::TooLarge(_) => NotDone::TooLarge(told),
            WriteError::Damaged(why) => NotDone::Damaged(why.clone()),
            WriteError::Unknown(_)
            | WriteError::Unreachable(_)
            | WriteError::Unavailable(_)
            | WriteError::LeaseEnded
            | WriteError::Denied(_)
            | WriteError::Stopped => NotDone::NotMade(told),
        };
        match error {
            WriteError::TooLarge(_) if self.may_halve() => self.abort_round(actions),
            WriteError::TooLarge(_) | WriteError::Full(_) | WriteError::Denied(_) => {
                self.end_writes(&why, actions);
            }
            WriteError::Unknown(_)
            | WriteError::Unreachable(_)
            | WriteError::Unavailable(_)
            | WriteError::LeaseEnded
            | WriteError::Damaged(_)
            | WriteError::Stopped => self.give_up_round(&why, actions),
        }
    }

    /// Makes later rounds write less together, if several steps of this one wrote and nothing of it may be made.
    /// Returns whether it did.
    fn may_halve(&mut self) -> bool {
        let round = self.round.as_ref().filter(|it| !it.may_be_made);
        let bytes = round.and_then(Round::bytes_of_several);
        match bytes.filter(|_| !self.is_sent()) {
            Some(bytes) => {
                self.most_bytes = self.most_bytes.min(bytes / 2);
                true
            }
            None => false,
        }
    }

    /// Ends the writes of the round. Everything else begins again, before all other work.
    fn end_writes(&mut self, why: &NotDone, actions: &mut Vec<Action>) {
        let is_sent = self.is_sent();
        let ends = self.round.as_mut().filter(|_| !is_sent).is_some_and(|it| {
            it.end_writes(&match it.may_be_made {
                true => NotDone::Unknown(why.to_string()),
                false => why.clone(),
            })
        });
        match ends {
            true => {
                self.is_unwritten = true;
                self.abort_round(actions);
            }
            false => self.give_up_round(why, actions),
        }
    }
}

/// Reports that the store has ended, if this error means that.
fn note_ended(error: &WriteError, actions: &mut Vec<Action>) {
    if matches!(error, WriteError::Stopped | WriteError::Unreachable(_)) {
        actions.push(Action::StoreEnded(error.to_string()));
    }
}
