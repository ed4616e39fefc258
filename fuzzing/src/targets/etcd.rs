use crate::target::{holds, Target};
use durkenzo_store::{KeyChange, LeaseId, Outcome, Pair, Revision, StoreSize};
use prost::Message;
use serde_json::{json, Value};

#[path = "../../../store/src/etcd/call_error.rs"]
#[allow(dead_code)]
mod call_error;
#[path = "../../../store/src/etcd/grpc_frame.rs"]
#[allow(dead_code)]
mod grpc_frame;
#[path = "../../../store/src/etcd/wire.rs"]
#[allow(dead_code)]
mod wire;

use call_error::{CallError, GrpcStatus};
use wire::{
    Granted, KeepAliveResponse, MemberStatus, RangeResult, Streamed, TransactionResult,
    WatchRequest, WatchResult,
};

/// The answers of etcd, in JSON by its gateway and by gRPC.
pub struct EtcdAnswers;

impl Target for EtcdAnswers {
    fn check(&mut self, input: &[u8]) -> Result<(), String> {
        if let Ok(found) = serde_json::from_slice::<TransactionResult>(input) {
            of_transaction(found.outcome())?;
        }
        if let Ok(found) = serde_json::from_slice::<RangeResult>(input) {
            let revision = found.revision();
            of_range(revision, found.pairs.into_iter().map(Pair::from).collect())?;
        }
        if let Ok(Streamed {
            result: Some(found),
        }) = serde_json::from_slice::<Streamed<WatchResult>>(input)
        {
            of_watch(found)?;
        }
        if let Ok(refusal) = serde_json::from_slice::<GrpcStatus>(input) {
            let error = CallError::Refused(refusal);
            let told = (
                error.clone().of_write(),
                error.clone().of_read(),
                error.clone().of_compaction(),
                error.of_lease(LeaseId(1)),
            );
            holds(!format!("{told:?}").is_empty(), || {
                "it says nothing".to_owned()
            })?;
        }
        // These are only numbers.
        let _ = serde_json::from_slice::<Granted>(input).map(|it| it.id);
        let _ = serde_json::from_slice::<Streamed<KeepAliveResponse>>(input);
        let _ = serde_json::from_slice::<MemberStatus>(input).map(StoreSize::from);
        by_grpc(input)
    }

    fn words(&self) -> &[&'static [u8]] {
        &[
            b"\"header\":{\"revision\":\"7\"}",
            b"\"succeeded\":true",
            b"\"responses\":[{\"response_range\":{\"kvs\":[]}}]",
            b"\"kvs\":[{\"key\":\"YQ==\",\"mod_revision\":\"3\",\"value\":\"Yg==\"}]",
            b"\"events\":[{\"type\":\"DELETE\",\"kv\":{\"key\":\"YQ==\"}}]",
            b"\"result\":{",
            b"\"canceled\":true",
            b"\"TTL\":\"5\"",
            b"\"ID\":\"7\"",
            b"\"dbSize\":\"20480\",\"dbSizeInUse\":\"16384\"",
            b"\"code\":8,\"message\":\"etcdserver: mvcc: database space exceeded\"",
            b"\\ud800",
            b"null",
            b"[[[[",
            b"{},",
        ]
    }

    fn seeds(&mut self) -> Vec<Vec<u8>> {
        let pairs = [Pair {
            key: b"a".to_vec(),
            value: b"b".to_vec(),
            revision: Revision(3),
            created: Revision(2),
        }];
        let range = range(Revision(7), &pairs);
        let answers = [
            json!({"header": {"revision": "7"}, "succeeded": true, "responses": [{"response_put": {}}]}),
            json!({"header": {"revision": "7"}, "responses": [{"response_range": range}]}),
            json!({"result": {"header": {"revision": "9"}, "events": [{"kv": stored(&pairs[0])}]}}),
            json!({"result": {"TTL": "5"}, "ID": "7", "code": 5, "message": "lease not found"}),
            range,
        ];
        let in_json = answers.iter().map(|it| it.to_string().into_bytes());
        in_json.chain(messages(&answers)).collect()
    }
}

/// Returns the same answers by gRPC: a transaction's, a range's and an event's, and one in its frame.
fn messages(answers: &[Value]) -> Vec<Vec<u8>> {
    let transaction: TransactionResult = read(&answers[1]).expect("it is one");
    let watch: WatchResult = read(&answers[2]["result"]).expect("it is one");
    let range: RangeResult = read(&answers[4]).expect("it is one");
    let framed = grpc_frame::framed(&wire::Nothing {}).expect("it is short");
    vec![
        transaction.encode_to_vec(),
        watch.encode_to_vec(),
        range.encode_to_vec(),
        framed,
    ]
}

/// Reads an answer by gRPC. It must be the same if it is written anew.
fn by_grpc(input: &[u8]) -> Result<(), String> {
    if let Ok(found) = TransactionResult::decode(input) {
        let again = written_anew(&found)?.outcome();
        holds(again == found.outcome(), || {
            format!("{again:?} is another one")
        })?;
    }
    if let Ok(found) = RangeResult::decode(input) {
        let again = written_anew(&found)?;
        let pairs = |it: RangeResult| it.pairs.into_iter().map(Pair::from).collect::<Vec<_>>();
        let is_same = again.revision() == found.revision() && pairs(again) == pairs(found);
        holds(is_same, || "the range is another one".to_owned())?;
    }
    if let Ok(found) = WatchResult::decode(input) {
        let again = written_anew(&found)?;
        let changes = |it: WatchResult| {
            it.events
                .into_iter()
                .map(KeyChange::from)
                .collect::<Vec<_>>()
        };
        holds(changes(again) == changes(found), || {
            "changes are others".to_owned()
        })?;
    }
    let _ = MemberStatus::decode(input).map(StoreSize::from);
    let _ = grpc_frame::read::<KeepAliveResponse>(input);
    let (mut held, before) = (input.to_vec(), input.len());
    let taken = grpc_frame::take::<Granted>(&mut held);
    let is_right = held.len() == before || !matches!(taken, Ok(None));
    holds(is_right, || "bytes are lost".to_owned())
}

/// Returns what a message is if it is written and read again.
fn written_anew<T: Message + Default>(found: &T) -> Result<T, String> {
    T::decode(&*found.encode_to_vec()).map_err(|it| format!("{found:?} is refused: {it}"))
}

/// Its pairs must be the same if they are written anew.
fn of_transaction(outcome: Outcome) -> Result<(), String> {
    let Outcome::Lost(reading) = outcome else {
        return Ok(());
    };
    let range = range(reading.revision, &reading.pairs);
    let header = json!({"revision": reading.revision.0.to_string()});
    let spelled = json!({"header": header, "responses": [{"response_range": range}]});
    let again: TransactionResult = read(&spelled)?;
    let is_same = matches!(again.outcome(), Outcome::Lost(it) if it == reading);
    holds(is_same, || format!("{reading:?} is another one"))
}

fn of_range(revision: Revision, pairs: Vec<Pair>) -> Result<(), String> {
    // It would be watched from there on.
    WatchRequest::from(b"record/", revision);
    let again: RangeResult = read(&range(revision, &pairs))?;
    let found: Vec<Pair> = again.pairs.into_iter().map(Pair::from).collect();
    holds(found == pairs, || format!("{pairs:?} are {found:?}"))
}

fn of_watch(found: WatchResult) -> Result<(), String> {
    for change in found.events.into_iter().map(KeyChange::from) {
        let KeyChange {
            key,
            value,
            revision,
            created,
        } = change;
        let pair = Pair {
            key,
            value: value.unwrap_or_default(),
            revision,
            created,
        };
        of_range(pair.revision, vec![pair])?;
    }
    Ok(())
}

fn range(revision: Revision, pairs: &[Pair]) -> Value {
    let pairs: Vec<Value> = pairs.iter().map(stored).collect();
    json!({"header": {"revision": revision.0.to_string()}, "kvs": pairs})
}

fn stored(pair: &Pair) -> Value {
    json!({
        "key": base64::encode(&pair.key),
        "value": base64::encode(&pair.value),
        "mod_revision": pair.revision.0.to_string(),
        "create_revision": pair.created.0.to_string(),
    })
}

fn read<T: serde::de::DeserializeOwned>(spelled: &Value) -> Result<T, String> {
    serde_json::from_value(spelled.clone()).map_err(|it| format!("{spelled} is refused: {it}"))
}
