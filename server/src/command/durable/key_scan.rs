use super::findings::Findings;
use super::query::Query;
use super::shard_walk::{Visit, Walk};
use crate::cluster::Cluster;
use crate::command::cursors::OwnCursors;
use crate::command::latest::Position;
use crate::command::scan::following;
use crate::command::wanted::{self, WantedScan};
use crate::resp::Replies;
use durkenzo_driver::Range;

/// The most shards that a SCAN asks before it answers with the keys that it has found.
const MOST_ASKED: usize = 64;

/// SCAN over shards whose data outlives the process.
#[derive(Debug)]
pub(super) struct KeyScan {
    wanted: WantedScan,
    shards: u16,
    /// The cursors that its connection was given last.
    cursors: OwnCursors,
    /// The position at which it goes on. There is none once all keys were given.
    next: Option<Position>,
    /// The query under way: from which position on, and how many keys.
    asked: Option<(Position, usize)>,
    found: Vec<Box<[u8]>>,
    seen: usize,
    steps: usize,
}

impl KeyScan {
    /// Makes the scan from this position on, for a connection with these cursors.
    pub(super) fn new(
        wanted: WantedScan,
        next: Position,
        shards: u16,
        cursors: OwnCursors,
    ) -> KeyScan {
        KeyScan {
            wanted,
            shards,
            cursors,
            next: Some(next),
            asked: None,
            found: Vec::new(),
            seen: 0,
            steps: 0,
        }
    }
}

impl Walk for KeyScan {
    fn next(&mut self) -> Option<(u16, Visit)> {
        let is_over = self.seen >= self.wanted.count || self.steps == MOST_ASKED;
        let position = self.next.take_if(|_| !is_over)?;
        self.steps += 1;
        let most = (self.wanted.count - self.seen).min(Range::MOST);
        let (shard, query) = (position.shard, Query::keys_behind(&position, most));
        self.asked = Some((position, most));
        Some((shard, Visit::Query(query)))
    }

    fn take(&mut self, found: Findings) {
        let Some((position, most)) = self.asked.take() else {
            return;
        };
        let keys: Vec<_> = found.pairs.into_iter().map(|it| it.0).collect();
        self.seen += keys.len();
        self.next = following(position, &keys, most, self.shards);
        let wanted = &self.wanted;
        self.found
            .extend(keys.into_iter().filter(|it| wanted.takes(it)));
    }

    fn answer(self: Box<Self>, cluster: &Cluster, answer: &mut Replies) {
        let keep = |it| cluster.cursors.keep(it, &self.cursors);
        let cursor = self.next.map_or(0, keep);
        wanted::answer(cursor, &self.found, answer);
    }
}
