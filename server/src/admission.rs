//! How a thread gets access to a shard's body: as the server that the board admits.
use crate::body::BoxedBody;
use crate::cluster::Cluster;
use crate::passes::{Passes, RequestTarget};
use crate::stats::Stats;
use crate::storage::{InMemory, Storage};
use crate::wait::NotAdmitted;
use durkenzo::{AdmitFault, PassFault, Permit, ServerId};
use std::sync::Arc;

/// A thread's access to shards in memory. Over a store, threads don't access shards themselves: each admission is
/// refused with `UnknownShard`, and nothing is counted by server.
#[derive(Debug)]
pub struct Admission {
    cluster: Arc<Cluster>,
    stats: Arc<Stats>,
    passes: Option<Passes>,
}

impl Admission {
    /// Makes the admission of a thread with these counters.
    ///
    /// # Errors
    ///
    /// `NoMemory`.
    pub fn new(cluster: Arc<Cluster>, stats: Arc<Stats>) -> Result<Admission, PassFault> {
        let of =
            |memory: &Arc<InMemory>| Passes::new(cluster.clone(), memory.clone(), stats.clone());
        let passes = match &cluster.storage {
            Storage::Memory(memory) => Some(of(memory)?),
            Storage::Folder(_) | Storage::Etcd(_) => None,
        };
        Ok(Admission {
            cluster,
            stats,
            passes,
        })
    }

    /// Returns whether the thread accesses shards itself.
    pub fn has_passes(&self) -> bool {
        self.passes.is_some()
    }

    /// Gives back the passes of servers that requests don't reach any more, and takes passes of servers that are back.
    /// Returns the version of the servers' presence to which the passes belong.
    ///
    /// # Errors
    ///
    /// `NoMemory`.
    pub fn refresh(&mut self) -> Result<u64, PassFault> {
        match &mut self.passes {
            Some(passes) => passes.refresh(),
            None => Ok(self.cluster.presence.version()),
        }
    }

    /// Returns the thread's counters.
    pub fn stats(&self) -> &Stats {
        &self.stats
    }

    /// Counts the commands that were done under the last permit, and how many of them were answered with an error.
    pub fn note_done(&self, commands: u64, errors: u64) {
        if let Some(passes) = &self.passes {
            passes.note_done(commands, errors);
        }
    }

    /// Runs the closure on the body of the shard, as the server that executes it.
    ///
    /// # Errors
    ///
    /// Returns the reason to wait, or the board's reason to refuse. In both cases nothing was done.
    #[inline]
    pub fn admit<R>(
        &mut self,
        shard: u16,
        work: impl FnOnce(&mut BoxedBody) -> R,
    ) -> Result<R, NotAdmitted> {
        self.admit_permit(shard, |permit| work(permit))
    }

    /// Does the same, and passes the permit to the closure.
    ///
    /// # Errors
    ///
    /// As [`Admission::admit`].
    #[inline]
    pub fn admit_permit<R>(
        &mut self,
        shard: u16,
        work: impl FnOnce(&mut Permit<'_, BoxedBody>) -> R,
    ) -> Result<R, NotAdmitted> {
        let passes = self.passes.as_mut().ok_or(NO_PASSES)?;
        passes.admit(passes.target(shard), shard, work)
    }

    /// Runs the closure on the body of the shard, for a request to this server, which may forward it.
    ///
    /// # Errors
    ///
    /// As [`Admission::admit`].
    pub fn admit_as<R>(
        &mut self,
        server: u16,
        shard: u16,
        work: impl FnOnce(&mut BoxedBody) -> R,
    ) -> Result<R, NotAdmitted> {
        let passes = self.passes.as_mut().ok_or(NO_PASSES)?;
        let server = ServerId::new(server);
        let server = server.map_err(|_| NotAdmitted::Refused(AdmitFault::BadServer))?;
        passes.admit(RequestTarget::direct(server, true), shard, |permit| {
            work(permit)
        })
    }
}

/// Why a thread over a store doesn't access shards itself.
const NO_PASSES: NotAdmitted = NotAdmitted::Refused(AdmitFault::UnknownShard);
