use crate::{keys, Live, Members, StoredRecord};
use durkenzo_store::{ReadError, Revision, Seen, Store, Watch};
use std::collections::BTreeMap;
use std::fmt;
use std::sync::{Arc, Mutex, PoisonError, RwLock};

/// The owner of each shard, and the addresses of servers, as a watch of the store tells them to a process that runs no
/// server.
///
/// A route never goes back: once a record was seen, no earlier record of the shard is returned.
pub struct RouteMap {
    seen: Arc<RwLock<SeenRoutes>>,
    /// The watches end with this value.
    _watches: Mutex<[Watch; 2]>,
}

#[derive(Default)]
struct SeenRoutes {
    records: BTreeMap<u16, StoredRecord>,
    members: Members,
}

/// A shard's owner.
#[derive(Clone, Debug, PartialEq, Eq)]
pub struct SeenRoute {
    /// The server.
    pub server: u16,
    /// The address at which other servers reach it, and clients by a fleet's frames.
    pub address: String,
    /// The revision of the shard's record.
    pub revision: Revision,
}

impl RouteMap {
    /// Watches the store's records and servers.
    ///
    /// # Errors
    ///
    /// If the store can't be read.
    pub fn watch(store: &dyn Store) -> Result<RouteMap, ReadError> {
        let seen = Arc::<RwLock<SeenRoutes>>::default();
        let watch = |prefix| {
            let seen = seen.clone();
            let note = move |told| {
                let mut seen = seen.write().unwrap_or_else(PoisonError::into_inner);
                seen.note(prefix, told);
            };
            store.watch(prefix, Box::new(note))
        };
        let _watches = Mutex::new([watch(keys::RECORDS)?, watch(keys::SERVERS)?]);
        Ok(RouteMap { seen, _watches })
    }

    /// Returns the shard's owner, if it has one that is there.
    pub fn route(&self, shard: u16) -> Option<SeenRoute> {
        let seen = self.seen.read().unwrap_or_else(PoisonError::into_inner);
        let stored = seen.records.get(&shard)?;
        let server = stored.record()?.owner()?;
        Some(SeenRoute {
            server,
            address: seen.members.get(&server)?.addresses.servers.clone(),
            revision: stored.revision(),
        })
    }
}

impl SeenRoutes {
    fn note(&mut self, prefix: &[u8], told: Seen) {
        let changes: Vec<_> = match told {
            Seen::All(reading) => {
                if prefix == keys::SERVERS {
                    self.members = Members::default();
                }
                let pairs = reading.pairs.into_iter();
                pairs
                    .map(|it| (it.key, Some(it.value), it.revision, it.created))
                    .collect()
            }
            Seen::Changes(_, changes) => {
                let changes = changes.into_iter();
                changes
                    .map(|it| (it.key, it.value, it.revision, it.created))
                    .collect()
            }
        };
        for (key, value, revision, created) in changes {
            if let Some(server) = keys::server_of(&key) {
                let live = value.as_deref().and_then(|it| Live::of(it, created));
                self.members.note(server, live);
            } else if let (Some(shard), Some(bytes)) = (keys::shard_of_record(&key), value) {
                let is_later = |it: &StoredRecord| it.revision() < revision;
                if self.records.get(&shard).is_none_or(is_later) {
                    let stored = StoredRecord::new(bytes, revision);
                    self.records.insert(shard, stored);
                }
            }
        }
    }
}

impl fmt::Debug for RouteMap {
    fn fmt(&self, f: &mut fmt::Formatter<'_>) -> fmt::Result {
        f.debug_struct("RouteMap").finish_non_exhaustive()
    }
}
