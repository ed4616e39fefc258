use super::answers::Answers;
use super::overlay::{changes, loaded};
use super::spelled_request::spell_exec;
use crate::cluster::Cluster;
use crate::command::session::Session;
use crate::command::transaction::MultiTransaction;
use crate::command::Fault;
use crate::resp::Replies;
use durkenzo_driver::{Begin, Key, MapReply, MapRequest, NotDone, Work, WorkOutcome, WorkStep};
use std::sync::{Arc, Weak};

/// The most requests that a transaction's writes may be. A key takes one or two.
const MOST_WRITES: usize = 2_048;

/// The commands of EXEC, whose keys are all of one shard. They are done on the values that the keys had, and written at
/// once.
pub(super) struct StoredExec {
    transaction: Box<MultiTransaction>,
    /// The cluster, which has the shard that has this work.
    cluster: Weak<Cluster>,
    shard: u16,
    keys: Vec<Key>,
    answer: Option<Replies>,
    answers: Arc<Answers>,
}

impl StoredExec {
    /// Returns the step of this transaction. Its answer is the only part.
    pub(super) fn step(
        transaction: Box<MultiTransaction>,
        cluster: Arc<Cluster>,
        shard: u16,
        keys: Vec<Key>,
        answers: Arc<Answers>,
    ) -> WorkStep {
        let begin = Begin::Change(keys.clone());
        let work = StoredExec {
            transaction,
            cluster: Arc::downgrade(&cluster),
            shard,
            keys,
            answer: None,
            answers,
        };
        WorkStep {
            begin,
            work: Box::new(work),
        }
    }

    fn requests(&self, held: &[MapReply], answer: &mut Replies) -> Result<Vec<MapRequest>, Fault> {
        let stopped = Fault::NotDone(self.shard, NotDone::Stopped);
        let cluster = self.cluster.upgrade().ok_or(stopped)?;
        let mut body = loaded(&self.keys, held)?;
        let mark = answer.mark();
        // A change must be answered truly, so there must be room for the answer.
        answer.keep_room(self.transaction.len() as usize)?;
        // A command that is queued over a store needs nothing of its connection.
        let mut session = Session::new(0, true);
        let transaction = &self.transaction;
        transaction.execute(Some(&mut body), &mut session, &cluster, answer);
        let requests = changes(&mut body, &self.keys, held);
        if requests.len() > MOST_WRITES {
            answer.take_back(mark);
            return Err(Fault::QueueOfWrites(MOST_WRITES));
        }
        Ok(requests)
    }
}

impl Work for StoredExec {
    fn decide(&mut self, held: Vec<MapReply>) -> Vec<MapRequest> {
        let mut answer = self.answers.part();
        let requests = self.requests(&held, &mut answer).unwrap_or_else(|fault| {
            answer.error(fault);
            Vec::new()
        });
        self.answer = Some(answer);
        requests
    }

    fn is_wanted(&self) -> bool {
        self.answers.caller().is_there()
    }

    fn spell(&self) -> Vec<u8> {
        spell_exec(self.answers.part().protocol, &self.transaction)
    }

    fn answered(self: Box<Self>, answer: &[u8]) {
        self.answers.bring_bytes(0, answer);
    }

    fn end(mut self: Box<Self>, outcome: WorkOutcome) {
        let answer = self.answer.take().filter(|_| outcome.is_ok());
        let answer = answer.unwrap_or_else(|| {
            let mut refused = self.answers.part();
            let why = outcome.err().unwrap_or(NotDone::Busy);
            refused.error(Fault::NotDone(self.shard, why));
            refused
        });
        self.answers.bring(0, answer);
    }
}
