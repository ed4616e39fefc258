use super::findings::{Findings, VisitResult};
use super::query::Query;
use super::shard_walk::Visit;
use super::spelled_request::{spell_keyed, spell_query};
use crate::command::Fault;
use crate::io::{Caller, ReplyAddress};
use crate::resp::{OwnedCommand, Protocol, Replies};
use durkenzo_driver::{Key, MapReply, MapRequest, Work, WorkOutcome, WorkStep};

/// The callback that gets the shard's findings. It must not wait.
pub(super) type Then = Box<dyn FnOnce(VisitResult) + Send>;

/// A query of one shard's keys, or their deletion.
pub(super) struct ShardVisit {
    visit: Visit,
    shard: u16,
    protocol: Protocol,
    caller: Caller,
    then: Then,
}

impl ShardVisit {
    /// Returns the step of this visit, for the client who waits for it and that client's version of the protocol.
    pub(super) fn step(
        visit: Visit,
        shard: u16,
        (caller, protocol): (Caller, Protocol),
        then: Then,
    ) -> WorkStep {
        let begin = visit.begin();
        let work = ShardVisit {
            visit,
            shard,
            protocol,
            caller,
            then,
        };
        WorkStep {
            begin,
            work: Box::new(work),
        }
    }

    /// Returns the step of another process's query. The findings are sent to that process.
    pub(super) fn told_to(
        query: Query,
        shard: u16,
        protocol: Protocol,
        reply_to: ReplyAddress,
    ) -> WorkStep {
        let caller = reply_to.caller();
        let then = move |told: VisitResult| match told {
            Ok(found) => reply_to.send(found.spell()),
            Err(refused) => reply_to.send(refused.unsent().to_vec()),
        };
        ShardVisit::step(
            Visit::Query(query),
            shard,
            (caller, protocol),
            Box::new(then),
        )
    }
}

impl Work for ShardVisit {
    fn decide(&mut self, _held: Vec<MapReply>) -> Vec<MapRequest> {
        Vec::new()
    }

    fn is_wanted(&self) -> bool {
        self.caller.is_there()
    }

    fn spell(&self) -> Vec<u8> {
        match &self.visit {
            Visit::Query(query) => spell_query(self.protocol, query),
            Visit::Delete(keys) => spell_keyed(self.protocol, None, &deletion(keys)),
        }
    }

    fn answered(self: Box<Self>, answer: &[u8]) {
        let found = match &self.visit {
            Visit::Query(_) => Findings::spelled(answer),
            // The answer is the number of deleted keys.
            Visit::Delete(_) => answer.starts_with(b":").then(Findings::default),
        };
        let told = found.ok_or_else(|| {
            let mut refused = Replies::new(self.protocol);
            refused.append_told(answer);
            refused
        });
        (self.then)(told);
    }

    fn end(self: Box<Self>, outcome: WorkOutcome) {
        let told = match outcome {
            Ok(replies) => Ok(Findings::of(replies)),
            Err(why) => {
                let mut refused = Replies::new(self.protocol);
                refused.error(Fault::NotDone(self.shard, why));
                Err(refused)
            }
        };
        (self.then)(told);
    }
}

/// Returns the command that deletes these keys. Each version of the table has it.
fn deletion(keys: &[Key]) -> OwnedCommand {
    let words: Vec<&[u8]> = [&b"DEL"[..]]
        .into_iter()
        .chain(keys.iter().map(|it| &**it))
        .collect();
    OwnedCommand::of(&words)
}
