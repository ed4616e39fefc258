//! The storage of data: the memory of this process, a folder, or etcd. Functions that only one of these has are on its
//! own type.
mod board_records;
mod etcd;
mod folder;
mod memory;
mod opened;

pub(crate) use board_records::BoardRecords;
pub use etcd::OnEtcd;
pub use folder::InFolder;
pub use memory::InMemory;
pub use opened::Opened;

use crate::works::Peers;
use durkenzo_driver::Durable;
use durkenzo_store::StoreCounts;
use std::sync::Arc;

/// Where data lies.
#[derive(Debug)]
pub enum Storage {
    /// In the memory of this process, on a board whose passes threads have.
    Memory(Arc<InMemory>),
    /// In a folder, in a store that only this process uses.
    Folder(InFolder),
    /// In etcd, through which several processes are one cluster.
    Etcd(OnEtcd),
}

impl Storage {
    /// Returns the shards whose data outlives the process, if there are such. Requests then go to these shards, and not
    /// to a board.
    pub fn durable(&self) -> Option<&Arc<Durable>> {
        match self {
            Storage::Memory(_) => None,
            Storage::Folder(folder) => Some(folder.durable()),
            Storage::Etcd(etcd) => Some(etcd.durable()),
        }
    }

    /// Returns the counts of this process's transactions, if there is a store.
    pub fn counts(&self) -> Option<&StoreCounts> {
        match self {
            Storage::Memory(_) => None,
            Storage::Folder(folder) => Some(folder.counts()),
            Storage::Etcd(etcd) => Some(etcd.counts()),
        }
    }

    /// Returns the other processes, if this one is a server of a cluster of several.
    pub fn peers(&self) -> Option<&Arc<Peers>> {
        match self {
            Storage::Memory(_) | Storage::Folder(_) => None,
            Storage::Etcd(etcd) => Some(etcd.peers()),
        }
    }

    /// Returns whether keys and the work of each server are counted. They are only counted if a board admits threads.
    pub fn has_counts(&self) -> bool {
        match self {
            Storage::Memory(_) => true,
            Storage::Folder(_) | Storage::Etcd(_) => false,
        }
    }

    /// Returns how many keys the shard has, if they are counted, as was noted last under its permit.
    pub fn keys(&self, shard: u16) -> Option<u64> {
        match self {
            Storage::Memory(memory) => Some(memory.keys(shard)),
            Storage::Folder(_) | Storage::Etcd(_) => None,
        }
    }

    /// Returns how many keys all shards have, if they are counted.
    pub fn all_keys(&self) -> Option<u64> {
        match self {
            Storage::Memory(memory) => Some(memory.all_keys()),
            Storage::Folder(_) | Storage::Etcd(_) => None,
        }
    }

    /// Notes how many keys the shard has, if they are counted. The caller must have its permit.
    pub fn note_keys(&self, shard: u16, keys: usize) {
        match self {
            Storage::Memory(memory) => memory.note_keys(shard, keys),
            Storage::Folder(_) | Storage::Etcd(_) => {}
        }
    }

    /// Stops other processes from asking this one's control.
    pub fn leave_control(&self) {
        match self {
            Storage::Memory(_) | Storage::Folder(_) => {}
            Storage::Etcd(etcd) => etcd.peers().leave_control(),
        }
    }

    /// Leaves the store and the other processes, once each thread of this one has ended.
    pub fn stop(&self) {
        match self {
            Storage::Memory(_) => {}
            Storage::Folder(folder) => folder.durable().stop(),
            Storage::Etcd(etcd) => {
                etcd.peers().close();
                etcd.durable().stop();
                etcd.peers().leave();
            }
        }
    }

    /// Returns why the store has ended, if it has. Then nothing more is done.
    pub fn ended(&self) -> Option<&str> {
        self.durable().and_then(|it| it.ended())
    }

    /// Returns where data lies and what a crash leaves of it, for the log at the start and for INFO.
    pub fn description(&self) -> &'static str {
        match self {
            Storage::Memory(_) => "in memory alone: a crash or a stop loses all data",
            Storage::Folder(folder) => folder.description(),
            Storage::Etcd(_) => {
                "on etcd: what was answered is there as long as most of its members are"
            }
        }
    }
}
