use super::findings::Findings;
use super::query::Query;
use super::shard_walk::{Visit, Walk};
use crate::cluster::Cluster;
use crate::command::merged::Merged;
use crate::command::wanted::WantedRange;
use crate::keyspace::Keyspace;
use crate::resp::Replies;
use durkenzo_driver::Range;
use std::ops::RangeInclusive;

/// SCANRANGE over shards whose data outlives the process.
#[derive(Debug)]
pub(super) struct RangeScan {
    low: Box<[u8]>,
    high: Option<Box<[u8]>>,
    /// The shards that weren't asked yet.
    shards: RangeInclusive<u16>,
    /// Whether each shard's keys lie below those of the next one.
    is_ordered: bool,
    found: Merged,
}

impl RangeScan {
    /// Makes the scan for the wanted range, over the shards that may have keys of it.
    pub(super) fn new(wanted: &WantedRange<'_>, keyspace: &Keyspace) -> RangeScan {
        RangeScan {
            low: wanted.low.into(),
            high: wanted.high.map(Into::into),
            shards: keyspace.shards_within(wanted.low, wanted.high),
            is_ordered: keyspace.is_ordered(),
            found: Merged::new(wanted.most),
        }
    }
}

impl Walk for RangeScan {
    fn next(&mut self) -> Option<(u16, Visit)> {
        if self.found.is_full() && self.is_ordered {
            return None;
        }
        let shard = self.shards.next()?;
        let range = Range {
            low: self.low.clone(),
            high: self.found.below(self.high.as_deref()),
            most: self.found.most(),
        };
        Some((shard, Visit::Query(Query::Pairs(range))))
    }

    fn take(&mut self, found: Findings) {
        self.found.add(found.pairs);
    }

    fn answer(self: Box<Self>, _cluster: &Cluster, answer: &mut Replies) {
        self.found.answer(answer);
    }
}
