use crate::ShardLoad;
use std::collections::BTreeMap;

/// The version of a report's bytes.
const VERSION: u8 = 1;
/// The most shards in a report, which then has some 5 KiB.
pub(crate) const MOST: usize = 512;

/// The loads of a server's shards, as it tells them to the leader.
#[derive(Clone, Debug, Default, PartialEq, Eq)]
pub(crate) struct LoadReport(pub(crate) BTreeMap<u16, ShardLoad>);

impl LoadReport {
    /// Returns the report of these shards: of those with the greatest weight, if there are many.
    pub(crate) fn new(loads: BTreeMap<u16, ShardLoad>) -> LoadReport {
        let mut rows: Vec<_> = loads.into_iter().collect();
        rows.sort_by_key(|it| (std::cmp::Reverse(it.1.weight()), it.0));
        rows.truncate(MOST);
        LoadReport(rows.into_iter().collect())
    }

    /// Returns whether it tells something new: other shards, or a shard whose weight has changed by more than a
    /// quarter, and by more than four.
    pub(crate) fn is_news_after(&self, earlier: &LoadReport) -> bool {
        let are_same = self.0.keys().eq(earlier.0.keys());
        let pairs = self.0.values().zip(earlier.0.values());
        let mut weights = pairs.map(|it| (it.0.weight(), it.1.weight()));
        !are_same
            || weights.any(|(now, before)| {
                let change = now.abs_diff(before);
                change > 4 && change > now.max(before) / 4
            })
    }

    /// Returns its bytes: a version, and for each shard its number, requests and KiB.
    pub(crate) fn bytes(&self) -> Vec<u8> {
        let mut bytes = vec![VERSION];
        for (shard, load) in &self.0 {
            bytes.extend(shard.to_be_bytes());
            bytes.extend(load.requests.to_be_bytes());
            bytes.extend(load.kibibytes.to_be_bytes());
        }
        bytes
    }

    /// Reads a report from these bytes. Returns nothing if they are malformed.
    pub(crate) fn of(bytes: &[u8]) -> Option<LoadReport> {
        let (version, mut rest) = bytes.split_first()?;
        if *version != VERSION {
            return None;
        }
        let mut loads = BTreeMap::new();
        while !rest.is_empty() {
            let (shard, behind) = rest.split_first_chunk()?;
            let (requests, behind) = behind.split_first_chunk()?;
            let (kibibytes, behind) = behind.split_first_chunk()?;
            let load = ShardLoad {
                requests: u32::from_be_bytes(*requests),
                kibibytes: u32::from_be_bytes(*kibibytes),
            };
            loads.insert(u16::from_be_bytes(*shard), load);
            rest = behind;
        }
        (loads.len() <= MOST).then_some(LoadReport(loads))
    }
}

#[cfg(test)]
mod tests {
    use super::*;

    fn report(requests: impl IntoIterator<Item = u32>) -> LoadReport {
        let load = |requests| ShardLoad {
            requests,
            kibibytes: 3,
        };
        LoadReport::new((0..).zip(requests.into_iter().map(load)).collect())
    }

    #[test]
    fn a_report_is_read_again() {
        let told = report([1, 0, u32::MAX]);
        let bytes = told.bytes();
        assert_eq!(LoadReport::of(&bytes), Some(told));
        assert_eq!(LoadReport::of(&bytes[..bytes.len() - 1]), None);
        assert_eq!(LoadReport::of(&[2]), None);
        assert_eq!(LoadReport::of(&[]), None);
    }

    #[test]
    fn a_report_is_bounded_and_tells_the_heaviest() {
        let told = report(0..4_096);
        assert_eq!(told.0.keys().copied().min(), Some(4_096 - MOST as u16));
        assert_eq!(told.bytes().len(), 1 + 10 * MOST);
        let too_many = [told.bytes(), report([1]).bytes()[1..].to_vec()].concat();
        assert_eq!(LoadReport::of(&too_many), None);
    }

    #[test]
    fn little_changes_are_no_news() {
        assert!(!report([100, 3]).is_news_after(&report([120, 0])));
        assert!(report([100]).is_news_after(&report([140])));
        assert!(report([100]).is_news_after(&report([100, 0])));
        assert!(!LoadReport::default().is_news_after(&LoadReport::default()));
    }
}
