//! The answers that a member gives by its gateway, from the state on which all members agree.
use super::gateway_json as json;
use crate::etcd::{EtcdRefusal, EtcdTransaction, TransactionReply};
use crate::etcd::{RangeQuery, Response};
use crate::simulated_store::SimulatedStore;
use durkenzo_store::LeaseId;
use serde_json::Value;
use std::time::Duration;

/// The HTTP statuses of a gateway's answers.
pub const DONE: u16 = 200;
pub const REFUSED: u16 = 400;

/// The answer of a member.
pub enum GatewayAnswer {
    /// A status and a body, at once.
    Whole(u16, Value),
    /// A stream of this one message.
    Line(Value),
    /// A stream of the changes in this range, from this revision on.
    Watch(RangeQuery, u64),
}

impl SimulatedStore {
    /// Answers a call to this member.
    pub fn answer(&mut self, member: usize, path: &str, asked: &[u8]) -> GatewayAnswer {
        let asked: Value = serde_json::from_slice(asked).expect("JSON of the client");
        match path {
            "/v3/kv/txn" => self.answer_transaction(member, &json::transaction(&asked)),
            path if path.starts_with("/v3/lease/") => self.answer_of_lease(path, &asked),
            "/v3/kv/range" => {
                let found = self.keyspace.range(&json::range_query(&asked));
                let revision = self.revision();
                whole(found.map(|it| json::range_reply(revision, &it, &asked)))
            }
            "/v3/watch" => {
                let asked = &asked["create_request"];
                let revision = json::number(&asked["start_revision"]);
                GatewayAnswer::Watch(json::range_query(asked), revision)
            }
            "/v3/kv/compaction" => {
                let compacted = self.keyspace.compact(json::number(&asked["revision"]));
                let revision = self.revision();
                whole(compacted.map(|()| json::nothing(revision)))
            }
            "/v3/maintenance/status" => GatewayAnswer::Whole(
                DONE,
                json::status(self.revision(), self.keyspace.compacted()),
            ),
            // The other calls ask the member to give room back, or for its alarms. It has no alarm.
            _ => GatewayAnswer::Whole(DONE, json::nothing(self.revision())),
        }
    }

    /// Grants a lease, keeps it or ends it, as the path says.
    fn answer_of_lease(&mut self, path: &str, asked: &Value) -> GatewayAnswer {
        let lease = LeaseId(json::number(&asked["ID"]) as i64);
        match path {
            "/v3/lease/grant" => {
                let seconds = json::number(&asked["TTL"]);
                let granted = self.grant(Duration::from_secs(seconds));
                let granted = granted.ok_or(EtcdRefusal::NoSpace);
                let revision = self.revision();
                whole(granted.map(|it| json::lease(revision, it, seconds)))
            }
            "/v3/lease/keepalive" => {
                let seconds = u64::from(self.keep(lease));
                GatewayAnswer::Line(json::lease(self.revision(), lease, seconds))
            }
            _ => {
                let is_ended = self.revoke(lease);
                let ended = is_ended.then_some(()).ok_or(EtcdRefusal::NoLease);
                let revision = self.revision();
                whole(ended.map(|()| json::nothing(revision)))
            }
        }
    }

    /// Makes a transaction. If it only compares, the member answers by its own state, which may be behind.
    fn answer_transaction(&mut self, member: usize, asked: &EtcdTransaction) -> GatewayAnswer {
        self.keyspace.set_full(self.is_full());
        if asked.success.is_empty() && asked.failure.is_empty() {
            let (now, revision) = (self.time.passed(), self.revision());
            let own = self.members.told(member, now, revision).unwrap_or(revision);
            let holds = |(key, of): &(Vec<u8>, u64)| {
                let pair = self.keyspace.pair_at(key, own);
                pair.map_or(0, |it| it.revision.0) == *of
            };
            let reply = TransactionReply {
                revision: own,
                succeeded: asked.compares.iter().all(holds),
                responses: Vec::<Response>::new(),
            };
            return GatewayAnswer::Whole(DONE, json::transaction_reply(&reply));
        }
        let made = self.keyspace.make(asked);
        whole(made.map(|it| json::transaction_reply(&it)))
    }
}

fn whole(answer: Result<Value, EtcdRefusal>) -> GatewayAnswer {
    match answer {
        Ok(told) => GatewayAnswer::Whole(DONE, told),
        Err(refusal) => GatewayAnswer::Whole(REFUSED, json::refusal(refusal)),
    }
}
