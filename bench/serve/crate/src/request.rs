//! The requests, and what their replies tell.

use crate::choice::{Choice, KEYS, SHARDS, Spot};
use sm_ranges::key::Key;
use sm_ranges::layout::Layout;
use sm_ranges::shard_id::ShardId;
use sm_service::{Bytes, Reply, Request};
use std::alloc::Global;

/// Of which kind all requests of a run are.
#[derive(Clone, Copy)]
pub(crate) enum Kind {
    Get,
    Put,
}

/// The lower bound of a shard's keys.
fn bound_of(shard: u16) -> [u8; 2] {
    [(shard >> 8) as u8, (shard & 255) as u8]
}

/// The layout of all shards.
pub(crate) fn layout_of(alloc: Global) -> Option<Layout> {
    let mut bounds: Vec<[u8; 2]> = Vec::new(alloc);
    for shard in 0..SHARDS {
        bounds.push(bound_of(shard)).ok()?;
    }
    let mut slices: Vec<&[u8]> = Vec::new(alloc);
    for bound in bounds.iter() {
        slices
            .push(if slices.is_empty() { b"" } else { &bound[..] })
            .ok()?;
    }
    Layout::new(alloc, &slices).ok()
}

/// The request at a spot: a key of 16 bytes, and a text of 32.
pub(crate) fn request_of(alloc: Global, kind: Kind, spot: Spot) -> Option<Request> {
    let [high, low] = bound_of(spot.shard.number());
    let mut bytes = [0u8; 16];
    bytes[0] = high;
    bytes[1] = low;
    bytes[15] = spot.key;
    let key = Key::new(alloc, &bytes).ok()?;
    match kind {
        Kind::Get => Some(Request::Get(key)),
        Kind::Put => Some(Request::Put(key, Bytes::new(alloc, &[spot.text; 32]).ok()?)),
    }
}

/// What a reply tells: the first byte of a text and 1, or 1 where a text was put; of another one 0.
pub(crate) fn told_by(reply: &Reply) -> u64 {
    match reply {
        Reply::Text(text) => match text.as_bytes().first() {
            Some(byte) => u64::from(*byte) + 1,
            None => 0,
        },
        Reply::Done => 1,
        _ => 0,
    }
}

/// What answers requests.
pub(crate) trait Answering {
    /// What the reply to the request tells, or 0 where there is none.
    fn answer(&mut self, k: ShardId, request: Request) -> u64;
}

/// Has so many requests of one kind answered, and gives the sum of what the replies tell.
pub(crate) fn answers<A: Answering>(
    to: &mut A,
    alloc: Global,
    kind: Kind,
    mut choice: Choice,
    tries: u64,
) -> u64 {
    let mut told = 0u64;
    for _ in 0..tries {
        let spot = choice.next();
        told = told.wrapping_add(answer_at(to, alloc, kind, spot));
    }
    told
}

// What the reply to the request at a spot tells.
fn answer_at<A: Answering>(to: &mut A, alloc: Global, kind: Kind, spot: Spot) -> u64 {
    let k = spot.shard;
    match request_of(alloc, kind, spot) {
        Some(request) => to.answer(k, request),
        None => 0,
    }
}

/// Has a text put at each key of all shards.
pub(crate) fn fill<A: Answering>(to: &mut A, alloc: Global) {
    for number in 0..SHARDS {
        if let Some(shard) = ShardId::new(number) {
            fill_shard(to, alloc, shard);
        }
    }
}

fn fill_shard<A: Answering>(to: &mut A, alloc: Global, shard: ShardId) {
    for key in 0..KEYS {
        let spot = Spot {
            shard,
            key,
            text: key,
        };
        answer_at(to, alloc, Kind::Put, spot);
    }
}
