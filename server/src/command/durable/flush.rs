use super::findings::Findings;
use super::query::Query;
use super::shard_walk::{Visit, Walk};
use crate::cluster::Cluster;
use crate::command::latest::Position;
use crate::command::scan::following;
use crate::command::Fault;
use crate::resp::Replies;
use durkenzo_driver::{Key, Range};
use std::mem;

/// FLUSHDB over shards whose data outlives the process. It finds a few keys at a time and deletes them.
#[derive(Debug)]
pub(super) struct Flush {
    shards: u16,
    /// The keys to delete next, and their shard.
    found: (u16, Vec<Key>),
    /// The position from which it looks for more keys. There is none after it has searched all shards.
    next: Option<Position>,
    /// Whether it is deleting the found keys now, and whether it has deleted keys before.
    is_deleting: bool,
    has_deleted: bool,
}

impl Flush {
    /// Makes the walk over so many shards.
    pub(super) fn new(shards: u16) -> Flush {
        Flush {
            shards,
            found: (0, Vec::new()),
            next: Some(Position::default()),
            is_deleting: false,
            has_deleted: false,
        }
    }
}

impl Walk for Flush {
    fn next(&mut self) -> Option<(u16, Visit)> {
        let (shard, keys) = mem::take(&mut self.found);
        self.is_deleting = !keys.is_empty();
        if self.is_deleting {
            return Some((shard, Visit::Delete(keys)));
        }
        let position = self.next.as_ref()?;
        let query = Query::keys_behind(position, Range::MOST);
        Some((position.shard, Visit::Query(query)))
    }

    fn take(&mut self, found: Findings) {
        if self.is_deleting {
            self.has_deleted = true;
            return;
        }
        let keys: Vec<Key> = found.pairs.into_iter().map(|it| it.0).collect();
        let Some(position) = self.next.take() else {
            return;
        };
        let shard = position.shard;
        self.next = following(position, &keys, Range::MOST, self.shards);
        self.found = (shard, keys);
    }

    fn refused(&self, refused: Replies) -> Replies {
        if !self.has_deleted {
            return refused;
        }
        let mut in_part = Replies::new(refused.protocol);
        in_part.error(Fault::FlushedInPart);
        in_part
    }

    fn answer(self: Box<Self>, _cluster: &Cluster, answer: &mut Replies) {
        answer.ok();
    }
}
