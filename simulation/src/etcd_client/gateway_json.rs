//! The JSON of an etcd's gateway: the requests of clients, and the answers of members.
use crate::etcd::{
    EtcdRefusal, EtcdTransaction, Operation, RangeQuery, RangeReply, Response, TransactionReply,
};
use durkenzo_store::{KeyChange, LeaseId, Pair};
use serde_json::{json, Value};

/// The gRPC codes by which a gateway refuses.
const INVALID: u64 = 3;
const NOT_FOUND: u64 = 5;
const FAILED: u64 = 9;
const EXHAUSTED: u64 = 8;
const OUT_OF_RANGE: u64 = 11;
const UNAVAILABLE: u64 = 14;

fn text(bytes: &[u8]) -> String {
    base64::encode(bytes)
}

fn bytes(value: &Value) -> Vec<u8> {
    base64::decode(value.as_str().unwrap_or_default()).expect("base64 of the client")
}

/// Returns the number in a field. If the field is left out, the number is 0.
pub fn number(value: &Value) -> u64 {
    let told = value
        .as_str()
        .map(|it| it.parse().expect("a number of the client"));
    told.unwrap_or(0)
}

/// Returns a client's request for a range.
pub fn range_query(asked: &Value) -> RangeQuery {
    RangeQuery {
        key: bytes(&asked["key"]),
        end: bytes(&asked["range_end"]),
        limit: number(&asked["limit"]) as usize,
        revision: number(&asked["revision"]),
    }
}

/// Returns a client's transaction.
pub fn transaction(asked: &Value) -> EtcdTransaction {
    let list = |name: &str| {
        let operations = asked[name].as_array().into_iter().flatten();
        operations.map(operation).collect()
    };
    let compares = asked["compare"].as_array().into_iter().flatten();
    EtcdTransaction {
        compares: compares
            .map(|it| (bytes(&it["key"]), number(&it["mod_revision"])))
            .collect(),
        success: list("success"),
        failure: list("failure"),
    }
}

fn operation(asked: &Value) -> Operation {
    if let Some(put) = asked.get("request_put") {
        let lease = number(&put["lease"]) as i64;
        return Operation::Put {
            key: bytes(&put["key"]),
            value: bytes(&put["value"]),
            lease: (lease > 0).then_some(LeaseId(lease)),
        };
    }
    match asked.get("request_delete_range") {
        Some(asked) => Operation::Delete {
            key: bytes(&asked["key"]),
            end: bytes(&asked["range_end"]),
        },
        None => Operation::Range(range_query(&asked["request_range"])),
    }
}

fn header(revision: u64) -> Value {
    json!({"revision": revision.to_string()})
}

fn stored(pair: &Pair) -> Value {
    json!({
        "key": text(&pair.key),
        "value": text(&pair.value),
        "mod_revision": pair.revision.0.to_string(),
        "create_revision": pair.created.0.to_string(),
    })
}

/// Returns a member's answer about a range. If only keys are asked for, it has no values. If only their count is asked
/// for, it has no pairs.
pub fn range_reply(revision: u64, found: &RangeReply, asked: &Value) -> Value {
    let pair = |it: &Pair| match asked["keys_only"] == true {
        true => stored(&Pair {
            value: Vec::new(),
            ..it.clone()
        }),
        false => stored(it),
    };
    let pairs: Vec<Value> = match asked["count_only"] == true {
        true => Vec::new(),
        false => found.pairs.iter().map(pair).collect(),
    };
    json!({"header": header(revision), "kvs": pairs, "more": found.more, "count": found.count.to_string()})
}

/// Returns a member's answer to a transaction.
pub fn transaction_reply(reply: &TransactionReply) -> Value {
    let response = |it: &Response| match it {
        Response::Put => json!({"response_put": {}}),
        Response::Deleted(count) => {
            json!({"response_delete_range": {"deleted": count.to_string()}})
        }
        Response::Range(found) => {
            json!({"response_range": range_reply(reply.revision, found, &Value::Null)})
        }
    };
    let responses: Vec<Value> = reply.responses.iter().map(response).collect();
    json!({"header": header(reply.revision), "succeeded": reply.succeeded, "responses": responses})
}

/// Returns a member's answer without content.
pub fn nothing(revision: u64) -> Value {
    json!({"header": header(revision)})
}

/// Returns a member's answer about its data. Each revision takes a byte.
pub fn status(revision: u64, compacted: u64) -> Value {
    let used = (revision - compacted).to_string();
    json!({"header": header(revision), "dbSize": revision.to_string(), "dbSizeInUse": used})
}

/// Returns a member's answer about a lease. If the lease has no time left, the answer leaves its time out.
pub fn lease(revision: u64, lease: LeaseId, seconds: u64) -> Value {
    let mut told = json!({"header": header(revision), "ID": lease.0.to_string()});
    if seconds > 0 {
        told["TTL"] = json!(seconds.to_string());
    }
    told
}

/// Returns a member's message that a watch begins.
pub fn created(revision: u64) -> Value {
    json!({"header": header(revision), "created": true})
}

/// Returns a member's message that tells a watch of these changes.
pub fn events(revision: u64, changes: &[KeyChange]) -> Value {
    let event = |it: &KeyChange| match &it.value {
        Some(value) => json!({"kv": stored(&Pair {
            key: it.key.clone(),
            value: value.clone(),
            revision: it.revision,
            created: it.created,
        })}),
        None => json!({
            "type": "DELETE",
            "kv": {"key": text(&it.key), "mod_revision": it.revision.0.to_string()},
        }),
    };
    let events: Vec<Value> = changes.iter().map(event).collect();
    json!({"header": header(revision), "events": events})
}

/// Returns a member's message that ends a watch, because its changes were compacted.
pub fn canceled(revision: u64, compacted: u64) -> Value {
    json!({"header": header(revision), "canceled": true, "compact_revision": compacted.to_string()})
}

/// Returns a message of a member as a line of a stream.
pub fn line(told: &Value) -> Vec<u8> {
    let mut bytes = json!({"result": told}).to_string().into_bytes();
    bytes.push(b'\n');
    bytes
}

/// Returns a member's refusal.
pub fn refusal(refusal: EtcdRefusal) -> Value {
    let (code, message) = match refusal {
        EtcdRefusal::Compacted => (
            OUT_OF_RANGE,
            "etcdserver: mvcc: required revision has been compacted",
        ),
        EtcdRefusal::Future => (
            OUT_OF_RANGE,
            "etcdserver: mvcc: required revision is a future revision",
        ),
        EtcdRefusal::DuplicateKey => (INVALID, "etcdserver: duplicate key given in txn request"),
        EtcdRefusal::NoLease => (NOT_FOUND, "etcdserver: requested lease not found"),
        EtcdRefusal::LeaseExists => (FAILED, "etcdserver: lease already exists"),
        EtcdRefusal::NoSpace => (EXHAUSTED, "etcdserver: mvcc: database space exceeded"),
    };
    json!({"error": message, "code": code, "message": message})
}

/// Returns a member's answer if it reaches no leader.
pub fn no_leader() -> Value {
    let message = "etcdserver: no leader";
    json!({"error": message, "code": UNAVAILABLE, "message": message})
}
