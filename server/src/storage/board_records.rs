use super::InMemory;
use crate::body::BoxedBody;
use durkenzo::{Pass, PassFault, Record, ServerId, ShardId, UnknownShard};
use std::sync::Arc;

/// Reads the records of the board in memory.
pub(crate) struct BoardRecords {
    memory: Arc<InMemory>,
    /// A pass of any server reads all records.
    pass: Pass<BoxedBody>,
    /// The version of the pass's board.
    version: u64,
}

impl BoardRecords {
    /// Makes the reader of this board's records.
    ///
    /// # Errors
    ///
    /// `NoMemory`.
    pub(crate) fn new(memory: Arc<InMemory>) -> Result<BoardRecords, PassFault> {
        let version = memory.version();
        let pass = memory.board().pass(ServerId::FIRST)?;
        Ok(BoardRecords {
            memory,
            pass,
            version,
        })
    }

    /// Switches to the new board, if one has replaced the old one.
    pub(crate) fn renew(&mut self) {
        if self.version == self.memory.version() {
            return;
        }
        match BoardRecords::new(self.memory.clone()) {
            Ok(renewed) => *self = renewed,
            Err(error) => tracing::error!(%error, "who looks at shards sees the earlier ones"),
        }
    }

    /// Returns the record of the shard, on the board in use.
    ///
    /// # Errors
    ///
    /// If there is no such shard.
    pub(crate) fn record(&mut self, shard: u16) -> Result<Record, UnknownShard> {
        self.renew();
        let at = ShardId::new(shard).map_err(|_| UnknownShard)?;
        let mut record = self.pass.look(at)?;
        record.generation += self.memory.base(shard);
        Ok(record)
    }
}
