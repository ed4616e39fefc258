use crate::{keys, ServerState, StoredRecord};
use durkenzo_store::{ReadError, Reading, Revision, Store};

/// A shard's record, with everything on which permits by it depend. All values are of one revision of the store.
#[derive(Clone, Debug, PartialEq, Eq)]
pub struct ShardSnapshot {
    /// The revision.
    pub revision: Revision,
    /// The shard's record.
    pub stored: StoredRecord,
    /// Whether the reading server has failed.
    pub failed: bool,
    /// The revision of the reading server's state, [`Revision::NEVER`] if there is none.
    pub stated: Revision,
    /// The revision at which the process of the record's owner joined, [`Revision::NEVER`] if it isn't there.
    pub owner_joined: Revision,
    /// Whether the record's owner has failed.
    pub owner_failed: bool,
}

impl ShardSnapshot {
    /// Reads these shards for the server, all at one revision. Each owner is the one in the record that was seen last.
    /// A shard whose owner has changed since is left out, and must be read again.
    ///
    /// # Errors
    ///
    /// If the store can't be read.
    pub fn read(
        store: &dyn Store,
        server: u16,
        shards: &[(u16, Option<u16>)],
    ) -> Result<Vec<(u16, ShardSnapshot)>, ReadError> {
        let owners = shards.iter().filter_map(|it| it.1);
        let mut keys = vec![keys::state(server)];
        keys.extend(owners.flat_map(|it| [keys::state(it), keys::server(it)]));
        keys.sort();
        keys.dedup();
        keys.extend(shards.iter().map(|it| keys::record(it.0)));
        let keys: Vec<&[u8]> = keys.iter().map(Vec::as_slice).collect();
        let found = store.read(&keys)?;
        let read = shards.iter().filter_map(|(shard, owner)| {
            let reading = ShardSnapshot::of(&found, server, *shard);
            let is_same = reading.stored.record().and_then(|it| it.owner()) == *owner;
            is_same.then_some((*shard, reading))
        });
        Ok(read.collect())
    }

    fn of(found: &Reading, server: u16, shard: u16) -> ShardSnapshot {
        let record = found.get(&keys::record(shard));
        let stored = record.map_or_else(StoredRecord::vacant, |it| {
            StoredRecord::new(it.value.clone(), it.revision)
        });
        let owner = stored.record().and_then(|it| it.owner());
        let joined = owner.and_then(|it| found.get(&keys::server(it)));
        ShardSnapshot {
            revision: found.revision,
            failed: has_failed(found, server),
            stated: found
                .get(&keys::state(server))
                .map_or(Revision::NEVER, |it| it.revision),
            owner_joined: joined.map_or(Revision::NEVER, |it| it.created),
            owner_failed: owner.is_some_and(|it| has_failed(found, it)),
            stored,
        }
    }
}

/// Returns whether the server has failed, by its state in the reading.
fn has_failed(found: &Reading, server: u16) -> bool {
    let state = found.get(&keys::state(server));
    state.is_some_and(|it| keys::state_of(&it.value) == Some(ServerState::Failed))
}

#[cfg(test)]
mod tests {
    use super::*;
    use crate::{Addresses, Member};
    use durkenzo_store::{Embedded, Transaction};
    use std::sync::Arc;
    use std::time::Duration;

    #[test]
    fn a_shard_is_read_with_its_owner_at_one_revision() {
        let store: Arc<dyn Store> = Arc::new(Embedded::in_memory());
        let (at, length) = (Addresses::default(), Duration::from_secs(60));
        let member = Member::join(store.clone(), 1, at, length, Box::new(|| {})).unwrap();
        let record = [&[1][..], &(1u64 << 61 | 1 << 48 | 1).to_be_bytes(), &[0; 8]].concat();
        let failed = [&[1][..], &4u64.to_be_bytes(), &[0; 8]].concat();
        let put = Transaction::new().put(keys::record(7), record);
        store.make(put.put(keys::state(2), failed)).unwrap();
        let read = |server, owner| ShardSnapshot::read(&*store, server, &[(7, owner)]).unwrap();
        assert!(read(2, None).is_empty() && read(2, Some(3)).is_empty());
        let (shard, found) = read(2, Some(1)).remove(0);
        assert_eq!((shard, found.failed, found.owner_failed), (7, true, false));
        assert_eq!(found.stated, found.stored.revision());
        assert_eq!(read(1, Some(1))[0].1.stated, Revision::NEVER);
        assert_eq!(found.owner_joined, member.joined());
        assert!(found.revision >= found.stored.revision());
        let kept = member.kept_lease().unwrap();
        assert_eq!((kept.joined, kept.length), (member.joined(), length));
        assert!(kept.asked <= member.time());
        member.leave();
        assert_eq!(member.kept_lease(), None);
        assert_eq!(read(1, Some(1))[0].1.owner_joined, Revision::NEVER);
    }
}
