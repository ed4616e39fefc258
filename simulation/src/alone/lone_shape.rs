use super::lone_process::LoneProcess;
use super::opened_folder::OpenedFolder;
use crate::chance::Chance;
use crate::folder::MountedDisk;
use crate::server::{ServerKeys, WokenInlet};
use crate::time::Time;
use durkenzo_driver::Clock;
use durkenzo_server::cluster::Cluster;
use durkenzo_server::configuration::Configuration;
use durkenzo_server::control::MemoryBackend;
use durkenzo_server::keyspace::Rule;
use durkenzo_server::run::BoxError;
use durkenzo_server::storage::{InFolder, InMemory, Storage};
use durkenzo_store::{StoreCounts, Sync};
use std::sync::Arc;
use std::time::Duration;

/// How many servers a process has.
pub const SERVERS: u16 = 3;
/// How long a command waits for a shard that no server executes.
const WAIT: Duration = Duration::from_millis(300);
/// A log has at most this many batches before a base replaces them.
const MOST_BATCHES: u64 = 4;
/// How many threads own connections, at most.
const MOST_THREADS: u64 = 3;

/// How the server of a schedule runs.
pub struct LoneShape {
    pub keys: ServerKeys,
    pub shards: u16,
    pub threads: usize,
    /// How many servers may be away for a restart at once.
    restarts: u16,
    pace: Duration,
    time: Time,
}

impl LoneShape {
    /// Draws how a server runs.
    pub fn drawn(chance: &mut Chance, time: &Time) -> LoneShape {
        let shards = [2, 4][chance.below(2) as usize];
        LoneShape {
            keys: ServerKeys::new(shards),
            shards,
            threads: 1 + chance.below(MOST_THREADS) as usize,
            restarts: 1 + chance.below(2) as u16,
            pace: Duration::from_millis([0, 0, 5][chance.below(3) as usize]),
            time: time.clone(),
        }
    }

    fn configuration(&self) -> Configuration {
        Configuration {
            servers: SERVERS,
            restarts: self.restarts,
            wait: WAIT,
            pace: self.pace,
            log_batches: MOST_BATCHES,
            ..Configuration::new(Rule::Bounds(self.keys.bounds()))
        }
    }

    /// Returns the clock of the process.
    pub fn clock(&self) -> Clock {
        let time = self.time.clone();
        Clock::new(move || time.now())
    }

    /// Begins a process whose data lies in memory.
    ///
    /// # Errors
    ///
    /// If there is no memory.
    pub fn in_memory(&self, life: u64) -> Result<LoneProcess, BoxError> {
        let configuration = self.configuration();
        let memory = Arc::new(InMemory::new(&configuration)?);
        let storage = Storage::Memory(memory.clone());
        let (cluster, inlets) = self.cluster(configuration, storage);
        let backend = MemoryBackend::new(cluster.clone(), memory)?;
        LoneProcess::begin(
            (life, self.clock()),
            (cluster, inlets),
            Box::new(backend),
            None,
        )
    }

    /// Begins a process whose data lies in the folder of this disk.
    ///
    /// # Errors
    ///
    /// If the folder can't be read or written.
    pub fn in_folder(
        &self,
        life: u64,
        disk: &MountedDisk,
        sync: Sync,
    ) -> Result<LoneProcess, BoxError> {
        let configuration = self.configuration();
        let time = self.time.clone();
        let folder = OpenedFolder::open((disk, sync), &configuration, (time, self.clock()))?;
        let counts = Arc::new(StoreCounts::new(self.time.now()));
        let storage = Storage::Folder(InFolder::new(folder.durable.clone(), counts, sync));
        let (cluster, inlets) = self.cluster(configuration, storage);
        let backend = folder.backend(&cluster.configuration)?;
        LoneProcess::begin(
            (life, self.clock()),
            (cluster, inlets),
            Box::new(backend),
            Some(folder),
        )
    }

    fn cluster(
        &self,
        configuration: Configuration,
        storage: Storage,
    ) -> (Arc<Cluster>, Vec<WokenInlet>) {
        let cluster = Arc::new(Cluster::by(configuration, storage, self.clock()));
        let inlets: Vec<_> = (0..self.threads)
            .map(|_| WokenInlet::new(SERVERS))
            .collect();
        cluster.set_inlets(inlets.iter().map(|it| it.inlet.clone()).collect());
        (cluster, inlets)
    }
}
