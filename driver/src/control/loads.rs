//! The loads of shards, as their servers tell them.
use super::DurableControl;
use crate::load_report::LoadReport;
use crate::{keys, Refused, ShardLoad};

impl DurableControl {
    /// Returns the loads that servers have told: the server, the shard and its load. A server may have told loads of
    /// shards that it doesn't own any more. Reports that can't be read are left out.
    ///
    /// # Errors
    ///
    /// If the store can't be read.
    pub fn loads(&self) -> Result<Vec<(u16, u16, ShardLoad)>, Refused> {
        let reading = self.durable.store().read_all(keys::LOADS)?;
        let reports = reading.pairs.iter();
        let reports = reports.filter_map(|it| {
            let server = keys::server_of_load(&it.key)?;
            Some((server, LoadReport::of(&it.value)?))
        });
        let rows = |(server, LoadReport(loads)): (u16, LoadReport)| {
            let rows = loads.into_iter();
            rows.map(move |(shard, load)| (server, shard, load))
        };
        Ok(reports.flat_map(rows).collect())
    }
}
