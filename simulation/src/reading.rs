//! Reads the values in the store, and the meanings of requests. It uses no code of the proved library.
use crate::claim::{Listed, MapQuery};
use std::collections::BTreeMap;
use std::fmt;

/// A shard's record. The phase is 0 vacant, 1 serving, 2 prepared, 3 forwarding, 4 taken, 5 paused.
#[derive(Clone, Copy, Debug, Default, PartialEq, Eq)]
pub struct DecodedRecord {
    pub phase: u64,
    pub owner: u64,
    pub other: u64,
    pub generation: u64,
    pub is_admitted: bool,
    pub process: u64,
}

pub fn number(bytes: &[u8]) -> u64 {
    bytes
        .iter()
        .fold(0, |all, &byte| (all << 8) | u64::from(byte))
}

/// Returns the fields after version 1. Returns `None` if the bytes have another version or another length.
fn fields(bytes: &[u8], count: usize) -> Option<Vec<u64>> {
    fields_of(1, bytes, count)
}

/// Returns the fields after this version. Returns `None` if the bytes have another version or another length.
fn fields_of(version: u8, bytes: &[u8], count: usize) -> Option<Vec<u64>> {
    if bytes.len() != 1 + 8 * count || bytes[0] != version {
        return None;
    }
    Some(bytes[1..].chunks(8).map(number).collect())
}

impl DecodedRecord {
    pub fn of(bytes: &[u8]) -> Option<DecodedRecord> {
        let fields = fields(bytes, 2)?;
        let word = fields[0];
        Some(DecodedRecord {
            phase: word >> 61,
            owner: (word >> 48) & 0xfff,
            other: (word >> 36) & 0xfff,
            generation: word & 0xf_ffff_ffff,
            is_admitted: (word >> 60) & 1 == 1,
            process: fields[1],
        })
    }

    pub fn bytes(&self) -> Vec<u8> {
        let word = (self.phase << 61) | (self.owner << 48) | (self.other << 36) | self.generation;
        let mut bytes = vec![1];
        bytes.extend(word.to_be_bytes());
        bytes.extend(self.process.to_be_bytes());
        bytes
    }

    /// Returns whether one change may lead from this record to the next one. It doesn't judge which server the change
    /// names.
    pub fn may_become(&self, next: &DecodedRecord) -> bool {
        let (from, to) = (self, next);
        let stays = from.owner == to.owner;
        let is_new = to.owner != 0 && to.owner != from.owner;
        let is_step = match (from.phase, to.phase) {
            (0, 1) => to.owner != 0 && to.other == 0,
            (1, 2) => stays && to.other != 0 && to.other != to.owner,
            (2, 3) => stays && to.other == from.other,
            (3, 4) => to.owner == from.other && to.other == from.owner,
            (4, 1) | (2, 1) | (3, 1) => stays && to.other == 0,
            (1, 5) => stays && to.other == 0,
            (5, 1) => (stays || is_new) && to.other == 0,
            _ => false,
        };
        is_step && !from.is_admitted && !to.is_admitted && to.generation == from.generation + 1
    }

    /// Returns whether the server executes requests that the server `from` forwarded. If `from` is 0, they came
    /// directly.
    pub fn accepts(&self, server: u64, from: u64) -> bool {
        match self.phase {
            1 | 2 | 4 => self.owner == server,
            3 => self.other == server && from == self.owner,
            _ => false,
        }
    }
}

impl fmt::Display for DecodedRecord {
    /// Writes the phase, and the servers that the record names.
    fn fmt(&self, f: &mut fmt::Formatter<'_>) -> fmt::Result {
        let phases = [
            "vacant",
            "serving",
            "prepared",
            "forwarding",
            "taken",
            "paused",
        ];
        let phase = phases.get(self.phase as usize).unwrap_or(&"unknown");
        match (self.owner, self.other) {
            (0, _) => f.write_str(phase),
            (owner, 0) => write!(f, "{phase}:{owner}"),
            (owner, other) => write!(f, "{phase}:{owner}:{other}"),
        }
    }
}

/// Returns the only number of a value: the process that is elected or that sent the latest command, or the generation
/// of an ack.
pub fn process(bytes: &[u8]) -> Option<u64> {
    Some(fields(bytes, 1)?[0])
}

/// Returns the progress of a server's restart: 0 up, 1 asked, 2 approved, 3 stopped, 4 failed. Then returns the process
/// whose command led to it, and the process of the server that the state names. That one is 0 if the state names none.
pub fn state(bytes: &[u8]) -> Option<(u64, u64, u64)> {
    let (fields, named) = match fields_of(2, bytes, 3) {
        Some(fields) => (fields.clone(), fields[2]),
        None => (fields(bytes, 2)?, 0),
    };
    (fields[0] <= 4).then_some((fields[0], fields[1], named))
}

/// Returns the process of a server, as the server's key says.
pub fn process_of_server(bytes: &[u8]) -> Option<u64> {
    let rest = bytes.strip_prefix(&[1])?;
    Some(number(rest.get(..8)?))
}

/// Returns the revision up to which a server follows the records, as the server's key says.
pub fn followed(bytes: &[u8]) -> Option<u64> {
    let rest = bytes.strip_prefix(&[1])?;
    Some(number(rest.get(8..16)?))
}

/// Returns how many batches a log has, how many of them its base stands for, and how many parts the base has.
pub fn head(bytes: &[u8]) -> Option<[u64; 3]> {
    let fields = fields(bytes, 3)?;
    Some([fields[0], fields[1], fields[2]])
}

#[derive(Clone, Debug, PartialEq, Eq)]
pub struct Item {
    pub client: u64,
    pub number: u64,
    pub from: u64,
    pub hops: u64,
    pub forgets: u64,
    pub request: Vec<u8>,
}

/// The rest of some bytes, which are read from front to back.
struct Rest<'a> {
    bytes: &'a [u8],
}

impl<'a> Rest<'a> {
    /// Returns the bytes after version 1. Returns `None` if the version is another one.
    fn of(bytes: &'a [u8]) -> Option<Rest<'a>> {
        let bytes = bytes.strip_prefix(&[1])?;
        Some(Rest { bytes })
    }

    fn bytes(&mut self, length: u64) -> Option<&'a [u8]> {
        let (front, after) = self.bytes.split_at_checked(length as usize)?;
        self.bytes = after;
        Some(front)
    }

    fn number(&mut self, length: u64) -> Option<u64> {
        self.bytes(length).map(number)
    }

    fn items(&mut self) -> Option<Vec<Item>> {
        let count = self.number(4)?;
        (0..count).map(|_| self.item()).collect()
    }

    fn item(&mut self) -> Option<Item> {
        Some(Item {
            client: self.number(8)?,
            number: self.number(8)?,
            from: self.number(4)?,
            hops: self.number(1)?,
            forgets: self.number(8)?,
            request: {
                let length = self.number(4)?;
                self.bytes(length)?.to_vec()
            },
        })
    }
}

/// Returns the server that executed a batch, and the batch's requests.
pub fn batch(bytes: &[u8]) -> Option<(u64, Vec<Item>)> {
    let mut rest = Rest::of(bytes)?;
    let server = rest.number(4)?;
    let items = rest.items()?;
    rest.bytes.is_empty().then_some((server, items))
}

/// The state after a shard's first requests: its map, the last number and reply of each client, and the number below
/// which clients are forgotten.
#[derive(Clone, Debug, Default, PartialEq, Eq)]
pub struct Made {
    pub map: MapModel,
    pub lasts: BTreeMap<u64, (u64, u8, u64)>,
    pub floor: u64,
}

/// Reads the state from a base of one part.
pub fn base(bytes: &[u8]) -> Option<Made> {
    let mut rest = Rest::of(bytes)?;
    let floor = rest.number(8)?;
    let length = rest.number(4)?;
    let map = MapModel::of(rest.bytes(length)?)?;
    let items = rest.items()?;
    let lasts = items.iter().map(|it| {
        let is_bare = (it.from, it.hops, it.forgets, it.request.len()) == (0, 0, 0, 9);
        let last = (it.number, it.request[0], number(&it.request[1..]));
        is_bare.then_some((it.client, last))
    });
    let lasts = lasts.collect::<Option<_>>()?;
    let made = Made { map, lasts, floor };
    rest.bytes.is_empty().then_some(made)
}

#[derive(Clone, Debug, PartialEq, Eq)]
pub enum DecodedValue {
    Text(Vec<u8>),
    Count(i64),
}

/// The kind and the number of a reply. If it is the reply to a read, also its text.
pub type Replied = (u8, u64, Vec<u8>);

/// Texts and counts, by their keys.
#[derive(Clone, Debug, Default, PartialEq, Eq)]
pub struct MapModel {
    held: BTreeMap<Vec<u8>, DecodedValue>,
}

fn bare(kind: u8) -> Replied {
    (kind, 0, Vec::new())
}

impl MapModel {
    /// Reads the map from these bytes of a base.
    fn of(bytes: &[u8]) -> Option<MapModel> {
        let (mut rest, mut map) = (Rest { bytes }, MapModel::default());
        while !rest.bytes.is_empty() {
            let (kind, keys, number) = (rest.number(1)?, rest.number(8)?, rest.number(8)?);
            let key = rest.bytes(keys)?.to_vec();
            let value = match kind {
                0 => DecodedValue::Text(rest.bytes(number)?.to_vec()),
                _ => DecodedValue::Count(number as i64),
            };
            map.held.insert(key, value);
        }
        Some(map)
    }

    /// Carries out a request, and returns its reply.
    pub fn answer(&mut self, request: &[u8]) -> Replied {
        let length = request.get(1).map_or(0, |&it| usize::from(it));
        if length == 0 || request.len() < 2 + length {
            return bare(8);
        }
        let (key, rest) = request[2..].split_at(length);
        match request[0] {
            1 => self.get(key),
            2 | 3 => self.put(key, rest, request[0] == 3),
            4 if rest.len() >= 8 => self.add(key, number(&rest[..8]) as i64),
            5 => bare(u8::from(self.held.remove(key).is_some())),
            _ => bare(8),
        }
    }

    /// Returns the reply to this question about the map.
    pub fn listed(&self, asked: &MapQuery) -> Listed {
        match asked {
            MapQuery::Keys(keys) => {
                let held = keys.iter().map(|it| (it.clone(), Some(self.get(it))));
                held.collect()
            }
            MapQuery::Count => vec![(Vec::new(), Some((3, self.held.len() as u64, Vec::new())))],
            MapQuery::Range {
                low,
                high,
                most,
                is_of_pairs,
            } => {
                let keys = self.held.keys().filter(|it| *it >= low);
                let keys = keys.filter(|it| high.as_ref().is_none_or(|high| *it < high));
                let told = |it: &Vec<u8>| is_of_pairs.then(|| self.get(it));
                keys.take(*most).map(|it| (it.clone(), told(it))).collect()
            }
        }
    }

    pub fn get(&self, key: &[u8]) -> Replied {
        match self.held.get(key) {
            None => bare(0),
            Some(DecodedValue::Text(text)) => (2, text.len() as u64, text.clone()),
            Some(DecodedValue::Count(count)) => (3, *count as u64, Vec::new()),
        }
    }

    fn put(&mut self, key: &[u8], text: &[u8], adds: bool) -> Replied {
        let mut whole = match self.held.get(key) {
            Some(DecodedValue::Count(_)) => return bare(5),
            Some(DecodedValue::Text(before)) if adds => before.clone(),
            _ => Vec::new(),
        };
        whole.extend(text);
        if whole.len() > 65_535 {
            return bare(7);
        }
        self.held.insert(key.to_vec(), DecodedValue::Text(whole));
        bare(1)
    }

    fn add(&mut self, key: &[u8], amount: i64) -> Replied {
        let before = match self.held.get(key) {
            Some(DecodedValue::Text(_)) => return bare(5),
            Some(DecodedValue::Count(count)) => *count,
            None => 0,
        };
        let Some(sum) = before.checked_add(amount) else {
            return bare(6);
        };
        self.held.insert(key.to_vec(), DecodedValue::Count(sum));
        (3, sum as u64, Vec::new())
    }
}
