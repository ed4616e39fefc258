use crate::keys;
use durkenzo::{word, Record, Stand};
use durkenzo_store::Revision;

/// A shard's record as it lies in the store.
#[derive(Clone, Debug, PartialEq, Eq)]
pub struct StoredRecord {
    bytes: Vec<u8>,
    revision: Revision,
}

impl StoredRecord {
    /// Returns the record of a shard that was never changed.
    pub(crate) fn vacant() -> StoredRecord {
        StoredRecord::new(keys::VACANT.to_vec(), Revision::NEVER)
    }

    /// Makes a record of these bytes, at this revision.
    pub(crate) fn new(bytes: Vec<u8>, revision: Revision) -> StoredRecord {
        StoredRecord { bytes, revision }
    }

    /// Returns its bytes.
    pub fn bytes(&self) -> &[u8] {
        &self.bytes
    }

    /// Returns the revision at which it was written.
    pub fn revision(&self) -> Revision {
        self.revision
    }

    /// Returns the record's word, if the bytes have one.
    pub fn word(&self) -> Option<u64> {
        let word = self.bytes.get(1..9)?.try_into().ok()?;
        Some(u64::from_be_bytes(word))
    }

    /// Returns the record, if the bytes are valid.
    pub fn record(&self) -> Option<Record> {
        word::record(self.word()?)
    }

    /// Returns whether the leader waits until all servers use this record, before the previous owner may drop the
    /// shard.
    pub(crate) fn is_awaited(&self) -> bool {
        self.record()
            .is_some_and(|it| matches!(it.stand, Stand::Taken { .. }))
    }

    /// Returns the generation that the server must ack because it no longer executes by this record, if the leader
    /// waits for that.
    pub(crate) fn let_go_by(&self, server: u16) -> Option<u64> {
        let record = self.record()?;
        let lets_go = match record.stand {
            Stand::Forwarding { owner, .. } | Stand::Paused(owner) => Some(owner),
            Stand::Vacant | Stand::Serving(_) | Stand::Prepared { .. } | Stand::Taken { .. } => {
                None
            }
        };
        (lets_go == Some(server)).then_some(record.generation)
    }

    /// Returns whether the server owns the shard, or is its next or previous owner.
    pub(crate) fn names(&self, server: u16) -> bool {
        let record = self.record();
        record.is_some_and(|it| it.owner() == Some(server) || it.other() == Some(server))
    }
}

/// Returns whether by this stand the server executes the shard, or will do so next, or has done so last. A paused shard
/// waits for its owner's return.
pub fn takes_part(stand: Stand, server: u16) -> bool {
    match stand {
        Stand::Serving(owner) => owner == server,
        Stand::Prepared { owner, next } | Stand::Forwarding { owner, next } => {
            [owner, next].contains(&server)
        }
        Stand::Taken { owner, previous } => [owner, previous].contains(&server),
        Stand::Paused(_) | Stand::Vacant => false,
    }
}
