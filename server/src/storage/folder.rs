use crate::configuration::Configuration;
use crate::run::BoxError;
use crate::settings;
use durkenzo_driver::Durable;
use durkenzo_store::{Embedded, MeasuredStore, Store, StoreCounts, Sync as SyncTime};
use std::path::Path;
use std::sync::Arc;

/// Data in a folder, in a store whose transactions are decided by proved servers.
#[derive(Debug)]
pub struct InFolder {
    durable: Arc<Durable>,
    counts: Arc<StoreCounts>,
    sync: SyncTime,
}

impl InFolder {
    /// Returns the counts of this process's transactions.
    pub fn counts(&self) -> &StoreCounts {
        &self.counts
    }

    /// Makes the storage of these shards, with the counts of their transactions, and the rule for when data is on the
    /// disk.
    pub fn new(durable: Arc<Durable>, counts: Arc<StoreCounts>, sync: SyncTime) -> InFolder {
        InFolder {
            durable,
            counts,
            sync,
        }
    }

    /// Opens the shards in this folder, with these settings.
    ///
    /// # Errors
    ///
    /// If the folder has other settings, or can't be read or written.
    pub fn open(
        folder: &Path,
        sync: SyncTime,
        configuration: &Configuration,
    ) -> Result<InFolder, BoxError> {
        let store = MeasuredStore::new(Embedded::in_folder(folder, sync)?);
        let (counts, store): (_, Arc<dyn Store>) = (store.counts().clone(), Arc::new(store));
        let place = format!("the folder {}", folder.display());
        settings::agree(&*store, &place, "name another folder", configuration)?;
        let (shards, shard_options) = (configuration.rule.shards(), configuration.shard_options());
        let durable = Durable::open(store, shards, shard_options, Box::new(|| {}))?;
        Ok(InFolder::new(Arc::new(durable), counts, sync))
    }

    /// Returns the shards.
    pub fn durable(&self) -> &Arc<Durable> {
        &self.durable
    }

    /// Returns what a crash leaves of the data.
    pub(super) fn description(&self) -> &'static str {
        match self.sync {
            SyncTime::Always => "in a folder: a crash loses nothing that was answered",
            SyncTime::Second => {
                "in a folder: a crash of the machine loses about a second, one of the process nothing"
            }
            SyncTime::No => {
                "in a folder: a crash of the machine loses what it hadn't written, one of the process nothing"
            }
        }
    }
}
