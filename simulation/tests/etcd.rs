//! Checks that the simulated etcd answers as a real one does, revision by revision. If etcd isn't installed, nothing is
//! compared.
#[path = "../../store/tests/beside/mod.rs"]
mod beside;

use beside::Member;
use durkenzo_store::{EtcdProtocol, KeyChange, LeaseId, Pair, Revision};
use serde_json::{json, Value};
use simulation::chance::Chance;
use simulation::etcd::{
    EtcdRefusal, EtcdTransaction, Heard, Keyspace, Operation, RangeQuery, RangeReply, Response,
    TransactionReply,
};
use std::io::{BufRead, BufReader, Write};
use std::net::TcpStream;
use std::time::{Duration, Instant};

/// How many operations are compared for each seed, if `DURKENZO_ETCD_STEPS` isn't a number.
const STEPS: u64 = 600;
const SEEDS: [u64; 2] = [1, 2];
/// How many keys and leases the operations are about.
const KEYS: u64 = 8;
const LEASES: u64 = 5;
/// The length in seconds of a lease that doesn't end by itself, and of one that does.
const LONG: u64 = 3_600;
const SHORT: u64 = 2;
/// A key that is written last. Once a watch tells it, the watch has told all changes before.
const LAST: &[u8] = b"k/last";

/// A real etcd, which is asked.
struct Real {
    member: Member,
}

fn text(bytes: &[u8]) -> String {
    base64::encode(bytes)
}

fn bytes(value: &Value) -> Vec<u8> {
    base64::decode(value.as_str().unwrap_or_default()).expect("bytes")
}

/// Returns the number in a field. If the number is 0, the gateway leaves the field out.
fn number(value: &Value) -> u64 {
    let told = value.as_str().map(|it| it.parse().expect("a number"));
    told.unwrap_or(0)
}

fn pair(value: &Value) -> Pair {
    Pair {
        key: bytes(&value["key"]),
        value: bytes(&value["value"]),
        revision: Revision(number(&value["mod_revision"])),
        created: Revision(number(&value["create_revision"])),
    }
}

fn range_reply(value: &Value) -> RangeReply {
    let pairs = value["kvs"].as_array().into_iter().flatten().map(pair);
    RangeReply {
        pairs: pairs.collect(),
        count: number(&value["count"]) as usize,
        more: value["more"] == true,
    }
}

fn asked_range(asked: &RangeQuery) -> Value {
    json!({"key": text(&asked.key), "range_end": text(&asked.end), "limit": asked.limit, "revision": asked.revision})
}

fn asked_operation(operation: &Operation) -> Value {
    match operation {
        Operation::Put { key, value, lease } => {
            let lease = lease.map_or(0, |it| it.0);
            json!({"request_put": {"key": text(key), "value": text(value), "lease": lease}})
        }
        Operation::Delete { key, end } => {
            json!({"request_delete_range": {"key": text(key), "range_end": text(end)}})
        }
        Operation::Range(asked) => json!({"request_range": asked_range(asked)}),
    }
}

fn response(value: &Value) -> Response {
    if let Some(found) = value.get("response_range") {
        return Response::Range(range_reply(found));
    }
    match value.get("response_delete_range") {
        Some(found) => Response::Deleted(number(&found["deleted"])),
        None => Response::Put,
    }
}

/// The refusals of etcd, by words in their messages.
const REFUSALS: [(&str, EtcdRefusal); 6] = [
    ("has been compacted", EtcdRefusal::Compacted),
    ("is a future revision", EtcdRefusal::Future),
    ("duplicate key", EtcdRefusal::DuplicateKey),
    ("lease not found", EtcdRefusal::NoLease),
    ("lease already exists", EtcdRefusal::LeaseExists),
    ("space exceeded", EtcdRefusal::NoSpace),
];

fn refusal(answer: &Value) -> Option<EtcdRefusal> {
    let message = answer.get("message")?.as_str()?;
    let found = REFUSALS.iter().find(|it| message.contains(it.0));
    Some(
        found
            .unwrap_or_else(|| panic!("an unknown refusal: {message}"))
            .1,
    )
}

impl Real {
    fn ask(&self, path: &str, asked: &Value) -> Result<Value, EtcdRefusal> {
        let answer = self.member.post(path, &asked.to_string());
        let (_, body) = answer.split_once("\r\n\r\n").expect("an answer");
        let answer: Value = serde_json::from_str(body).unwrap_or_else(|_| panic!("JSON: {body}"));
        refusal(&answer).map_or(Ok(answer), Err)
    }

    fn make(&self, asked: &EtcdTransaction) -> Result<TransactionReply, EtcdRefusal> {
        let compares = asked.compares.iter().map(
            |(key, revision)| json!({"key": text(key), "target": "MOD", "mod_revision": revision}),
        );
        let list = |it: &[Operation]| it.iter().map(asked_operation).collect::<Vec<_>>();
        let asked = json!({
            "compare": compares.collect::<Vec<_>>(),
            "success": list(&asked.success),
            "failure": list(&asked.failure),
        });
        let answer = self.ask("/v3/kv/txn", &asked)?;
        let responses = answer["responses"].as_array().into_iter().flatten();
        Ok(TransactionReply {
            revision: number(&answer["header"]["revision"]),
            succeeded: answer["succeeded"] == true,
            responses: responses.map(response).collect(),
        })
    }

    fn range(&self, asked: &RangeQuery) -> Result<(u64, RangeReply), EtcdRefusal> {
        let answer = self.ask("/v3/kv/range", &asked_range(asked))?;
        Ok((number(&answer["header"]["revision"]), range_reply(&answer)))
    }

    fn compact(&self, revision: u64) -> Result<(), EtcdRefusal> {
        let asked = json!({"revision": revision, "physical": true});
        self.ask("/v3/kv/compaction", &asked).map(drop)
    }

    fn grant(&self, lease: LeaseId, seconds: u64) -> Result<(), EtcdRefusal> {
        let asked = json!({"ID": lease.0, "TTL": seconds});
        self.ask("/v3/lease/grant", &asked).map(drop)
    }

    fn keep(&self, lease: LeaseId) -> bool {
        let answer = self.ask("/v3/lease/keepalive", &json!({"ID": lease.0}));
        number(&answer.expect("an answer")["result"]["TTL"]) > 0
    }

    fn revoke(&self, lease: LeaseId) -> Result<(), EtcdRefusal> {
        self.ask("/v3/lease/revoke", &json!({"ID": lease.0}))
            .map(drop)
    }

    /// Returns the keys of a lease. Returns `None` if the lease has ended.
    fn keys_of(&self, lease: LeaseId) -> Option<Vec<Vec<u8>>> {
        let asked = json!({"ID": lease.0, "keys": true});
        let answer = self.ask("/v3/lease/timetolive", &asked).expect("an answer");
        let keys = answer["keys"].as_array().into_iter().flatten().map(bytes);
        let mut keys: Vec<_> = keys.collect();
        keys.sort();
        (answer["TTL"] != "-1").then_some(keys)
    }

    /// Returns the changes that a watch hears from one revision up to the other. The range must have a change at the
    /// last revision, because the watch is read until that change comes.
    fn heard(&self, range: &RangeQuery, from: u64, until: u64) -> Heard {
        let create =
            json!({"key": text(&range.key), "range_end": text(&range.end), "start_revision": from});
        let asked = json!({ "create_request": create }).to_string();
        let address = self.member.endpoint.trim_start_matches("http://");
        let mut stream = TcpStream::connect(address).expect("it listens");
        let head = format!("POST /v3/watch HTTP/1.0\r\nContent-Length: {}", asked.len());
        let asked = format!("{head}\r\n\r\n{asked}");
        stream.write_all(asked.as_bytes()).expect("it hears");
        let lines = BufReader::new(stream).lines().map(|it| it.expect("a line"));
        let mut changes = Vec::new();
        for line in lines.filter(|it| it.starts_with('{')) {
            let told: Value = serde_json::from_str(&line).expect("JSON");
            let told = &told["result"];
            if told["canceled"] == true {
                return Heard::Compacted(number(&told["compact_revision"]));
            }
            changes.extend(told["events"].as_array().into_iter().flatten().map(change));
            if changes
                .last()
                .is_some_and(|it: &KeyChange| it.revision.0 == until)
            {
                return Heard::Changes(changes);
            }
        }
        panic!("the watch ends");
    }

    /// Makes the member say that it is full, or that it isn't any more.
    fn set_full(&self, is_full: bool) {
        let status = self
            .ask("/v3/maintenance/status", &json!({}))
            .expect("it is well");
        let action = if is_full { "ACTIVATE" } else { "DEACTIVATE" };
        let member = &status["header"]["member_id"];
        let asked = json!({"action": action, "memberID": member, "alarm": "NOSPACE"});
        self.ask("/v3/maintenance/alarm", &asked)
            .expect("it is done");
    }
}

fn change(event: &Value) -> KeyChange {
    let pair = pair(&event["kv"]);
    KeyChange {
        key: pair.key,
        value: (event["type"] != "DELETE").then_some(pair.value),
        revision: pair.revision,
        created: pair.created,
    }
}

/// A real etcd and the simulated one. Both get the same requests.
struct Both {
    real: Real,
    simulated: Keyspace,
    chance: Chance,
}

impl Both {
    fn key(&mut self) -> Vec<u8> {
        format!("k/{}", self.chance.below(KEYS)).into_bytes()
    }

    /// Returns the end of a range: of one key, of some keys, or of all keys to the last one.
    fn end(&mut self) -> Vec<u8> {
        match self.chance.below(4) {
            0 => self.key(),
            1 => b"\0".to_vec(),
            _ => Vec::new(),
        }
    }

    fn lease(&mut self) -> LeaseId {
        LeaseId(1 + self.chance.below(LEASES) as i64)
    }

    /// Returns a revision that is there, or was there, or will be there.
    fn revision(&mut self) -> u64 {
        let latest = self.simulated.revision();
        (latest + 2).saturating_sub(self.chance.below(latest.min(12) + 2))
    }

    fn query(&mut self) -> RangeQuery {
        RangeQuery {
            key: self.key(),
            end: self.end(),
            limit: self.chance.below(4) as usize,
            revision: match self.chance.is_true(1, 2) {
                true => 0,
                false => self.revision(),
            },
        }
    }

    fn operation(&mut self) -> Operation {
        match self.chance.below(8) {
            // If a range goes to the last key, etcd doesn't look for keys that are written twice. Clients delete no
            // such range.
            0 | 1 => Operation::Delete {
                key: self.key(),
                end: self.end().into_iter().filter(|it| *it > 0).collect(),
            },
            2 => Operation::Range(RangeQuery {
                revision: 0,
                ..self.query()
            }),
            3 => Operation::Range(self.query()),
            it => Operation::Put {
                key: self.key(),
                value: self.chance.below(1_000).to_string().into_bytes(),
                lease: (it == 4).then(|| self.lease()),
            },
        }
    }

    fn operations(&mut self) -> Vec<Operation> {
        let count = self.chance.below(4);
        (0..count).map(|_| self.operation()).collect()
    }

    fn transaction(&mut self) -> EtcdTransaction {
        let mut compares = Vec::new();
        for _ in 0..self.chance.below(3) {
            let key = self.key();
            let revision = match self.chance.is_true(1, 4) {
                true => self.revision(),
                false => self.simulated.revision_of(&key),
            };
            compares.push((key, revision));
        }
        EtcdTransaction {
            compares,
            success: self.operations(),
            failure: self.operations(),
        }
    }

    /// Compares one operation by chance.
    fn step(&mut self) {
        match self.chance.below(32) {
            0 => {
                let revision = self.revision();
                let told = self.simulated.compact(revision);
                assert_eq!(
                    told,
                    self.real.compact(revision),
                    "compaction at {revision}"
                );
            }
            1..=4 => self.step_of_leases(),
            5 | 6 => self.watch(),
            7 => {
                let is_full = self.chance.is_true(1, 3);
                self.real.set_full(is_full);
                self.simulated.set_full(is_full);
            }
            8..=14 => {
                let asked = self.query();
                let revision = self.simulated.revision();
                let told = self.simulated.range(&asked).map(|it| (revision, it));
                assert_eq!(told, self.real.range(&asked), "{asked:?}");
            }
            _ => {
                let asked = self.transaction();
                let told = self.simulated.make(&asked);
                assert_eq!(told, self.real.make(&asked), "{asked:?}");
            }
        }
    }

    fn step_of_leases(&mut self) {
        let (lease, length) = (self.lease(), Duration::from_secs(LONG));
        match self.chance.below(4) {
            0 | 1 => {
                let told = self.simulated.grant(lease, length, Duration::ZERO);
                assert_eq!(told, self.real.grant(lease, LONG), "{lease}");
            }
            2 => {
                let told = self.simulated.keep(lease, Duration::ZERO);
                assert_eq!(told, self.real.keep(lease), "{lease}");
            }
            _ => {
                let told = self.simulated.revoke(lease);
                assert_eq!(told, self.real.revoke(lease), "{lease}");
            }
        }
        let keys = self.simulated.keys_of(lease);
        let keys = keys.map(|it| it.iter().cloned().collect());
        assert_eq!(keys, self.real.keys_of(lease), "{lease}");
    }

    /// Compares the changes that a watch hears from a revision on. The last key is put before, so that both watches
    /// have an end.
    fn watch(&mut self) {
        let from = self.revision().min(self.simulated.revision());
        // If an etcd is full, it doesn't take the put that ends a watch.
        self.real.set_full(false);
        self.simulated.set_full(false);
        let put = EtcdTransaction {
            success: vec![Operation::Put {
                key: LAST.to_vec(),
                value: Vec::new(),
                lease: None,
            }],
            ..EtcdTransaction::default()
        };
        assert_eq!(self.simulated.make(&put), self.real.make(&put));
        let range = RangeQuery {
            end: b"k0".to_vec(),
            ..RangeQuery::of_key(b"k/")
        };
        let told = self.simulated.heard(&range, from);
        let until = self.simulated.revision();
        assert_eq!(told, self.real.heard(&range, from, until), "from {from}");
    }

    /// Compares a lease that ends by itself. The real etcd must not end it too early. Its keys are deleted at one
    /// revision.
    fn end_a_lease(&mut self) {
        self.real.set_full(false);
        self.simulated.set_full(false);
        let (lease, length, begun) = (LeaseId(99), Duration::from_secs(SHORT), Instant::now());
        let told = self.simulated.grant(lease, length, Duration::ZERO);
        assert_eq!(told, self.real.grant(lease, SHORT));
        let put = |number| Operation::Put {
            key: format!("leased/{number}").into_bytes(),
            value: Vec::new(),
            lease: Some(lease),
        };
        let put = EtcdTransaction {
            success: (0..3).map(put).collect(),
            ..EtcdTransaction::default()
        };
        assert_eq!(self.simulated.make(&put), self.real.make(&put));
        while self.real.keys_of(lease).is_some() {
            std::thread::sleep(Duration::from_millis(20));
        }
        assert!(begun.elapsed() >= length, "a lease ends early");
        assert_eq!(self.simulated.overdue(length), [lease]);
        assert_eq!(self.simulated.revoke(lease), Ok(()));
        let leased = RangeQuery::of_key(b"leased/0");
        let told = self
            .simulated
            .range(&leased)
            .map(|it| (self.simulated.revision(), it));
        assert_eq!(told, self.real.range(&leased));
    }
}

#[test]
fn answers_as_a_real_etcd_does() {
    let steps = std::env::var("DURKENZO_ETCD_STEPS");
    let steps = steps.ok().and_then(|it| it.parse().ok()).unwrap_or(STEPS);
    for seed in SEEDS {
        let Some(member) = Member::start(EtcdProtocol::Json, &[]) else {
            eprintln!("etcd isn't installed: nothing is compared with it");
            return;
        };
        let mut both = Both {
            real: Real { member },
            simulated: Keyspace::default(),
            chance: Chance::new(seed),
        };
        (0..steps).for_each(|_| both.step());
        both.end_a_lease();
        println!(
            "seed {seed}: {steps} operations, revision {}",
            both.simulated.revision()
        );
    }
}
