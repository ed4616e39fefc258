//! A lock for each shard, round its map.

use crate::choice::SHARDS;
use std::collections::BTreeMap;
use std::sync::Mutex;

/// Of which kind all requests of a run are.
#[derive(Clone, Copy)]
pub enum Kind {
    Get,
    Put,
}

pub enum ServedRequest {
    Get(Vec<u8>),
    Put(Vec<u8>, Vec<u8>),
}

pub enum ServedReply {
    Nothing,
    Text(Vec<u8>),
    Done,
}

impl ServedRequest {
    fn key(&self) -> &[u8] {
        match self {
            ServedRequest::Get(key) | ServedRequest::Put(key, _) => key,
        }
    }
}

impl ServedReply {
    /// The first byte of a text and 1, or 1 where a text was put.
    pub fn told(&self) -> u64 {
        match self {
            ServedReply::Text(text) => u64::from(text[0]) + 1,
            ServedReply::Done => 1,
            ServedReply::Nothing => 0,
        }
    }
}

type TextMap = BTreeMap<Vec<u8>, Vec<u8>>;

pub struct Locks {
    bounds: Vec<Vec<u8>>,
    shards: Vec<Mutex<TextMap>>,
    searches: bool,
}

impl Locks {
    /// The locks, which look for the shard of each request's key, or take the shard that comes with it.
    pub fn new(searches: bool) -> Locks {
        let bound = |shard: u16| if shard == 0 { Vec::new() } else { shard.to_be_bytes().to_vec() };
        Locks {
            bounds: (0..SHARDS).map(bound).collect(),
            shards: (0..SHARDS).map(|_| Mutex::new(TextMap::new())).collect(),
            searches,
        }
    }

    pub fn answer(&self, shard: u16, request: ServedRequest) -> ServedReply {
        let k = if self.searches { self.shard_of(request.key()) } else { usize::from(shard) };
        let mut map = self.shards[k].lock().unwrap();
        match request {
            ServedRequest::Get(key) => match map.get(&key) {
                Some(text) => ServedReply::Text(text.clone()),
                None => ServedReply::Nothing,
            },
            ServedRequest::Put(key, text) => {
                map.insert(key, text);
                ServedReply::Done
            }
        }
    }

    fn shard_of(&self, key: &[u8]) -> usize {
        self.bounds.partition_point(|bound| bound.as_slice() <= key) - 1
    }
}
