//! The passes with which a thread gets access to the shards of the board in memory.
use crate::body::BoxedBody;
use crate::cluster::Cluster;
use crate::stats::Stats;
use crate::storage::InMemory;
use crate::wait::{NotAdmitted, Wait};
use durkenzo::{
    AdmitFault, Mode, Pass, PassFault, Permit, Record, ServerId, ShardId, MAX_SERVER, MOST_HOPS,
};
use std::fmt;
use std::sync::Arc;

/// How often a thread looks for a shard's server, beside its spins.
const MOST_TURNS: u32 = 8;

/// The server to which a request goes, and how it got there.
#[derive(Clone, Copy, Debug)]
pub(crate) struct RequestTarget {
    server: ServerId,
    mode: Mode,
    hops: u8,
    /// Whether the request may go only to this server and to the one that it forwards to.
    is_fixed: bool,
}

impl RequestTarget {
    /// Makes the target of a request that comes from a client.
    pub(crate) fn direct(server: ServerId, is_fixed: bool) -> RequestTarget {
        let (mode, hops) = (Mode::Direct, 0);
        RequestTarget {
            server,
            mode,
            hops,
            is_fixed,
        }
    }
}

/// A thread's passes, one for each server that requests reach, and the servers to which it sends requests.
pub(crate) struct Passes {
    cluster: Arc<Cluster>,
    memory: Arc<InMemory>,
    stats: Arc<Stats>,
    /// The passes, from server 1 on.
    passes: Vec<Option<Pass<BoxedBody>>>,
    /// The server that last executed each shard, as far as this thread knows. If that is out of date, the server
    /// refuses with the record.
    routes: Box<[ServerId]>,
    version: u64,
    /// How often it looks for a shard's server.
    turns: u32,
    /// The place of the server as which the thread was admitted last.
    executed_by: usize,
}

impl Passes {
    /// Makes the passes of a thread with these counters, on this board.
    ///
    /// # Errors
    ///
    /// `NoMemory`.
    pub(crate) fn new(
        cluster: Arc<Cluster>,
        memory: Arc<InMemory>,
        stats: Arc<Stats>,
    ) -> Result<Passes, PassFault> {
        let mut passes = Passes {
            passes: (0..cluster.presence.servers()).map(|_| None).collect(),
            routes: vec![ServerId::FIRST; cluster.shards().into()].into(),
            version: 0,
            turns: cluster.configuration.spins.saturating_add(MOST_TURNS),
            executed_by: 0,
            stats,
            memory,
            cluster,
        };
        passes.renew()?;
        Ok(passes)
    }

    /// Gives back the passes of servers that requests don't reach any more, and takes passes of servers that are back.
    /// Returns the version of the servers' presence to which the passes belong.
    pub(crate) fn refresh(&mut self) -> Result<u64, PassFault> {
        if self.version != self.cluster.presence.version() {
            self.renew()?;
        }
        Ok(self.version)
    }

    fn renew(&mut self) -> Result<(), PassFault> {
        let version = self.cluster.presence.version();
        let board = self.memory.board();
        for (server, pass) in ServerId::all(MAX_SERVER).zip(&mut self.passes) {
            let is_reached = self.cluster.presence.is_reached(server.get());
            match pass {
                Some(_) if !is_reached => *pass = None,
                None if is_reached => *pass = Some(board.pass(server)?),
                _ => {}
            }
        }
        self.version = version;
        Ok(())
    }

    /// Counts the commands that were done under the last permit, and how many of them were answered with an error.
    pub(crate) fn note_done(&self, commands: u64, errors: u64) {
        let server = &self.stats.servers[self.executed_by];
        let mut done = commands;
        if errors > 0 {
            server.errors.add(errors);
            done -= errors.min(done);
        }
        server.done.add(done);
    }

    /// Returns the server to which a request for the shard is sent first: the one that executed it last.
    #[inline]
    pub(crate) fn target(&self, shard: u16) -> RequestTarget {
        RequestTarget::direct(self.routes[usize::from(shard)], false)
    }

    /// Runs the closure under a permit of the shard, for a request with this target.
    // When this is inlined, the work's variables stay in registers.
    #[inline(always)]
    pub(crate) fn admit<R>(
        &mut self,
        mut target: RequestTarget,
        shard: u16,
        work: impl FnOnce(&mut Permit<'_, BoxedBody>) -> R,
    ) -> Result<R, NotAdmitted> {
        let at = ShardId::new(shard).map_err(|_| unknown_shard())?;
        for _ in 0..self.turns {
            let index = target.server.index();
            let Some(pass) = self.passes[index].as_mut() else {
                self.around(shard, &mut target)?;
                continue;
            };
            let fault = match pass.admit(at, target.mode) {
                Ok(mut permit) => {
                    let done = work(&mut permit);
                    self.memory.note_keys(shard, permit.keys());
                    drop(permit);
                    self.stats.servers[index].admissions.add(1);
                    self.executed_by = index;
                    if target.hops > 0 {
                        self.stats.forwarded.add(u64::from(target.hops));
                    }
                    return Ok(done);
                }
                Err(fault) => fault,
            };
            self.after(shard, &mut target, fault)?;
        }
        self.stats.raced.add(1);
        Err(NotAdmitted::Wait(Wait::Busy(shard)))
    }

    /// Chooses the server to try next after a refusal.
    // This is outside of `admit`, so that a request that is admitted at once keeps nothing for it.
    #[cold]
    #[inline(never)]
    fn after(
        &mut self,
        shard: u16,
        target: &mut RequestTarget,
        fault: AdmitFault,
    ) -> Result<(), NotAdmitted> {
        match fault {
            AdmitFault::Admitted(_) | AdmitFault::Raced(_) => {
                std::hint::spin_loop();
                Ok(())
            }
            AdmitFault::NotExecutor(read) | AdmitFault::NotYet(read) => {
                self.along(shard, target, read, fault)
            }
            AdmitFault::Paused(read) => Err(self.paused(shard, target, read)),
            AdmitFault::Vacant(_) => Err(NotAdmitted::Wait(Wait::Vacant(shard))),
            other => Err(NotAdmitted::Refused(other)),
        }
    }

    /// Goes to another server that executes the shard: the one that this one forwards to, or the owner.
    fn along(
        &mut self,
        shard: u16,
        target: &mut RequestTarget,
        read: Record,
        fault: AdmitFault,
    ) -> Result<(), NotAdmitted> {
        let next = fault.forward(target.server);
        if let Some(server) = next.filter(|_| target.hops < MOST_HOPS) {
            let (mode, hops) = (Mode::Forwarded(target.server), target.hops + 1);
            *target = RequestTarget {
                server,
                mode,
                hops,
                ..*target
            };
            return Ok(());
        }
        match owner(read) {
            _ if target.is_fixed => Err(NotAdmitted::Refused(fault)),
            Some(owner) => {
                self.routes[usize::from(shard)] = owner;
                *target = RequestTarget::direct(owner, false);
                Ok(())
            }
            None => Err(NotAdmitted::Wait(Wait::Vacant(shard))),
        }
    }

    /// Returns the reason to wait if no server executes the shard. A client of the shard is told if its owner is away.
    fn paused(&self, shard: u16, target: &RequestTarget, read: Record) -> NotAdmitted {
        let owner = read.owner().filter(|_| !target.is_fixed);
        let away = owner.filter(|it| !self.cluster.presence.is_reached(*it));
        NotAdmitted::Wait(match away {
            Some(owner) => Wait::Unreachable(shard, owner),
            None => Wait::Paused(shard),
        })
    }

    /// Avoids a server that requests don't reach: goes to the owner, if that is another server. The owner can only
    /// forward to the executor.
    #[cold]
    #[inline(never)]
    fn around(&mut self, shard: u16, target: &mut RequestTarget) -> Result<(), NotAdmitted> {
        let away = NotAdmitted::Wait(Wait::Unreachable(shard, target.server.get()));
        if target.hops > 0 {
            return Err(away);
        }
        let pass = self.passes.iter_mut().flatten().next().ok_or(away)?;
        let at = ShardId::new(shard).map_err(|_| unknown_shard())?;
        let record = pass.look(at).map_err(|_| unknown_shard())?;
        match owner(record) {
            Some(owner) if owner != target.server && !target.is_fixed => {
                self.routes[usize::from(shard)] = owner;
                *target = RequestTarget::direct(owner, false);
                Ok(())
            }
            None if !target.is_fixed => Err(NotAdmitted::Wait(Wait::Vacant(shard))),
            _ => Err(away),
        }
    }
}

fn unknown_shard() -> NotAdmitted {
    NotAdmitted::Refused(AdmitFault::UnknownShard)
}

/// Returns the server that owns the shard of this record.
fn owner(read: Record) -> Option<ServerId> {
    read.owner().and_then(|it| ServerId::new(it).ok())
}

impl fmt::Debug for Passes {
    fn fmt(&self, f: &mut fmt::Formatter<'_>) -> fmt::Result {
        f.debug_struct("Passes")
            .field("routes", &self.routes)
            .finish_non_exhaustive()
    }
}
