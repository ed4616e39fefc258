//! The requests of clients to shards, and their answers.
use crate::claim::{Claim, Listed, MapQuery, Said};
use crate::links::{Parcel, Parcels, SpelledStep};
use crate::reading::Replied;
use crate::simulated_store::{locked, SharedStore};
use durkenzo_driver::{
    Begin, Key, MapReply, MapRequest, NotDone, Numbered, Range, Work, WorkOutcome,
};
use std::sync::atomic::{AtomicBool, Ordering};
use std::sync::{Arc, Mutex};

/// Everything that clients were told.
pub type Claims = Arc<Mutex<Vec<Claim>>>;

/// Work of a client, which notes its answers.
pub struct Asking {
    pub shared: SharedStore,
    pub told: Claims,
    pub shard: u16,
    pub begin: Begin,
    /// A number that makes the texts of this work unique.
    pub text: u32,
    /// The values of the keys at the last decision, and the requests of each decision.
    pub held: Vec<MapReply>,
    pub decided: Vec<Vec<MapRequest>>,
    /// The earliest revision that the work's reads may show.
    pub since: u64,
    pub is_wanted: Arc<AtomicBool>,
    pub parcels: Parcels,
}

impl Work for Asking {
    fn decide(&mut self, held: Vec<MapReply>) -> Vec<MapRequest> {
        let time = self.decided.len() as u32;
        let requests = decided(&self.begin, self.text, time, &held);
        self.held = held;
        self.decided.push(requests.clone());
        requests
    }

    fn is_wanted(&self) -> bool {
        self.is_wanted.load(Ordering::Relaxed)
    }

    fn spell(&self) -> Vec<u8> {
        self.parcels.spelled(Parcel::Step(SpelledStep {
            begin: self.begin.clone(),
            text: self.text,
            decided: self.decided.len() as u32,
        }))
    }

    fn answered(mut self: Box<Self>, answer: &[u8]) {
        let Some(Parcel::Answer(answer)) = self.parcels.of(answer) else {
            let why = "an answer can't be read".to_owned();
            return self.end(Err(NotDone::Damaged(why)));
        };
        self.held = answer.held;
        self.decided.extend(answer.decided);
        self.end(Ok(answer.replies));
    }

    fn end(mut self: Box<Self>, outcome: WorkOutcome) {
        let last = self.decided.pop();
        let said = self.said(last.as_deref(), outcome);
        let mut told = self.told.lock().expect("no schedule goes on after a panic");
        let at = locked(&self.shared).revision();
        let numbered = match &self.begin {
            Begin::Numbered(it, _) => Some((it.client, it.number)),
            _ => None,
        };
        let claim = |said| Claim {
            at,
            shard: self.shard,
            numbered,
            said,
        };
        told.extend(said.map(claim));
        // If the work decided again, the requests of its earlier decisions aren't made.
        for requests in &self.decided {
            let bodies = bodies(requests);
            told.push(claim(Said::NotMade { bodies }));
        }
    }
}

impl Asking {
    fn said(&self, decided: Option<&[MapRequest]>, outcome: WorkOutcome) -> Option<Said> {
        let bodies = bodies(match &self.begin {
            Begin::Write(requests) | Begin::Numbered(_, requests) => requests,
            _ => decided.unwrap_or_default(),
        });
        let replies = match outcome {
            Ok(replies) => replies,
            Err(NotDone::Damaged(why)) => return Some(Said::Damaged(why)),
            Err(NotDone::Unknown(_)) => return Some(Said::Unknown { bodies }),
            Err(NotDone::Passed) => return Some(Said::Passed),
            Err(_) => return Some(Said::NotMade { bodies }),
        };
        let held = match &self.begin {
            Begin::Change(keys) if bodies.is_empty() => {
                return Some(self.has_read(read(keys, &self.held)));
            }
            Begin::Change(keys) => read(keys, &self.held).1,
            // The simulated service is the sample one, which has no opaque requests.
            Begin::Write(_) | Begin::Numbered(..) | Begin::Opaque(_) => Listed::new(),
            Begin::Read(keys) => return Some(self.has_read(read(keys, &replies))),
            Begin::Scan(range) | Begin::Keys(range) => {
                let is_of_pairs = matches!(self.begin, Begin::Scan(_));
                let listed = replies.iter().map(listed).collect();
                return Some(self.has_read((asked(range, is_of_pairs), listed)));
            }
            Begin::Count => {
                let counted = replies.iter().map(|it| (Vec::new(), Some(replied(it))));
                return Some(self.has_read((MapQuery::Count, counted.collect())));
            }
        };
        let replies = replies.iter().map(bare).collect();
        Some(Said::Made {
            bodies,
            replies,
            held,
        })
    }

    fn has_read(&self, (asked, listed): (MapQuery, Listed)) -> Said {
        Said::Read {
            asked,
            listed,
            since: self.since,
        }
    }
}

/// Returns the requests that work with this beginning decides on, if its keys hold these values. The work has decided
/// `time` times before. `number` makes its texts unique.
pub fn decided(begin: &Begin, number: u32, time: u32, held: &[MapReply]) -> Vec<MapRequest> {
    let Begin::Change(keys) = begin else {
        return Vec::new();
    };
    let holds_nothing = held.iter().all(|it| *it == MapReply::Nothing);
    let text = [number.to_be_bytes(), time.to_be_bytes()].concat();
    match keys.first() {
        // The work decides to write nothing.
        Some(_) if number % 8 == 0 || holds_nothing && number % 2 == 0 => Vec::new(),
        Some(key) => vec![MapRequest::Put(key.clone(), text)],
        None => Vec::new(),
    }
}

fn asked(range: &Range, is_of_pairs: bool) -> MapQuery {
    MapQuery::Range {
        low: range.low.to_vec(),
        high: range.high.as_ref().map(|it| it.to_vec()),
        most: range.most,
        is_of_pairs,
    }
}

fn read(keys: &[Key], replies: &[MapReply]) -> (MapQuery, Listed) {
    let keys: Vec<Vec<u8>> = keys.iter().map(|it| it.to_vec()).collect();
    let replies = replies.iter().map(|it| Some(replied(it)));
    let listed = keys.iter().cloned().zip(replies).collect();
    (MapQuery::Keys(keys), listed)
}

fn listed(reply: &MapReply) -> (Vec<u8>, Option<Replied>) {
    match reply {
        MapReply::Pair(key, held) => (key.to_vec(), Some(replied(held))),
        MapReply::Key(key) => (key.to_vec(), None),
        other => (Vec::new(), Some(replied(other))),
    }
}

/// Returns the kind and the number of the reply to a request that writes.
fn bare(reply: &MapReply) -> (u8, u64) {
    let (kind, value, _) = replied(reply);
    (kind, value)
}

fn replied(reply: &MapReply) -> Replied {
    match reply {
        MapReply::Nothing => (0, 0, Vec::new()),
        MapReply::Done => (1, 0, Vec::new()),
        MapReply::Text(text) => (2, text.len() as u64, text.clone()),
        MapReply::Count(count) => (3, *count as u64, Vec::new()),
        MapReply::WrongKind => (5, 0, Vec::new()),
        MapReply::Overflow => (6, 0, Vec::new()),
        MapReply::TooLong => (7, 0, Vec::new()),
        MapReply::Malformed | MapReply::Pair(..) | MapReply::Key(_) => (8, 0, Vec::new()),
    }
}

/// Returns the bytes of the requests, as the documents define them.
fn bodies(requests: &[MapRequest]) -> Vec<Vec<u8>> {
    let spelled = |it: &MapRequest| {
        let (kind, rest) = match it {
            MapRequest::Put(_, text) => (2, text.clone()),
            MapRequest::Append(_, text) => (3, text.clone()),
            MapRequest::Add(_, amount) => (4, amount.to_be_bytes().to_vec()),
            MapRequest::Delete(_) => (5, Vec::new()),
        };
        let key = it.key();
        [&[kind, key.len() as u8][..], key, &rest].concat()
    };
    requests.iter().map(spelled).collect()
}

/// A client that numbers its requests, and makes one after the other.
pub struct Client {
    pub name: u64,
    pub number: u64,
    /// The requests under this number, and their shard.
    pub current: Option<(u16, Vec<MapRequest>)>,
}

impl Client {
    /// Returns a client that has asked nothing.
    pub fn new(name: u64) -> Client {
        Client {
            name,
            number: 0,
            current: None,
        }
    }

    /// Returns the shard and the beginning of the current work, if there is any.
    pub fn begin(&self) -> Option<(u16, Begin)> {
        let (shard, requests) = self.current.clone()?;
        let numbered = Numbered {
            client: self.name,
            number: self.number,
        };
        Some((shard, Begin::Numbered(numbered, requests)))
    }
}
