use crate::works::Peers;
use durkenzo_driver::Durable;
use durkenzo_store::{StoreCounts, Watch};
use std::sync::{Arc, Mutex, PoisonError};

/// Data in etcd. This process executes the part that belongs to its server.
#[derive(Debug)]
pub struct OnEtcd {
    durable: Arc<Durable>,
    peers: Arc<Peers>,
    counts: Arc<StoreCounts>,
    /// The watch on the settings, once other processes are answered.
    settings: Mutex<Option<Watch>>,
}

impl OnEtcd {
    /// Makes the storage of these shards, of which other processes execute some, with the counts of its transactions.
    pub fn new(durable: Arc<Durable>, peers: Arc<Peers>, counts: Arc<StoreCounts>) -> OnEtcd {
        OnEtcd {
            durable,
            peers,
            counts,
            settings: Mutex::default(),
        }
    }

    /// Keeps the watch on the settings until the end.
    pub fn keep(&self, watch: Watch) {
        *self.settings.lock().unwrap_or_else(PoisonError::into_inner) = Some(watch);
    }

    /// Returns the counts of this process's transactions.
    pub fn counts(&self) -> &StoreCounts {
        &self.counts
    }

    /// Returns the shards.
    pub fn durable(&self) -> &Arc<Durable> {
        &self.durable
    }

    /// Returns the other processes.
    pub fn peers(&self) -> &Arc<Peers> {
        &self.peers
    }
}
