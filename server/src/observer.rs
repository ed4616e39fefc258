//! The observer of servers and shards.
use crate::cluster::Cluster;
use crate::snapshot::{ProcessStatus, ServerStatus, ShardStatus, Snapshot};
use crate::storage::{BoardRecords, Storage};
use crate::works::Peers;
use durkenzo::{PassFault, Record, UnknownShard};
use durkenzo_driver::{Durable, ServerState};
use std::fmt;
use std::sync::Arc;

/// Observes the servers and shards of a cluster.
pub struct Observer {
    cluster: Arc<Cluster>,
    records: Records,
}

/// The source of records.
enum Records {
    /// On the board in memory.
    Board(BoardRecords),
    /// The store, as the records were seen there last.
    Store(Arc<Durable>),
}

impl Observer {
    /// Makes the observer of this cluster.
    ///
    /// # Errors
    ///
    /// `NoMemory`.
    pub fn new(cluster: Arc<Cluster>) -> Result<Observer, PassFault> {
        let records = match &cluster.storage {
            Storage::Memory(memory) => Records::Board(BoardRecords::new(memory.clone())?),
            Storage::Folder(folder) => Records::Store(folder.durable().clone()),
            Storage::Etcd(etcd) => Records::Store(etcd.durable().clone()),
        };
        Ok(Observer { cluster, records })
    }

    /// Looks at the new board, if one has replaced the old one. Until then the old board is kept, with all the contents
    /// of its shards.
    pub fn renew(&mut self) {
        match &mut self.records {
            Records::Board(board) => board.renew(),
            Records::Store(_) => {}
        }
    }

    /// Returns the record of the shard.
    ///
    /// # Errors
    ///
    /// If there is no such shard, or the store hasn't told its record yet.
    pub fn record(&mut self, shard: u16) -> Result<Record, UnknownShard> {
        match &mut self.records {
            Records::Board(board) => board.record(shard),
            Records::Store(durable) => {
                let standing = durable.standing(shard).ok_or(UnknownShard)?;
                standing.record().ok_or(UnknownShard)
            }
        }
    }

    /// Returns the generations of all shards.
    pub fn generations(&mut self) -> Vec<u64> {
        let shards = 0..self.cluster.shards();
        let of = |it| self.record(it).map_or(0, |it| it.generation);
        shards.map(of).collect()
    }

    /// Returns the state of the shard, if there is one.
    pub fn shard(&mut self, shard: u16) -> Option<ShardStatus> {
        let record = self.record(shard).ok()?;
        let keys = self.cluster.storage.keys(shard);
        Some(ShardStatus::new(shard, record, keys))
    }

    /// Returns the state of everything. Each record is seen at its own moment.
    pub fn snapshot(&mut self) -> Snapshot {
        let shards = 0..self.cluster.shards();
        let shards: Vec<_> = shards.filter_map(|it| self.shard(it)).collect();
        let servers = 1..=self.cluster.presence.servers();
        let servers = servers.map(|it| self.server(it, &shards)).collect();
        let data = self.cluster.storage.description();
        Snapshot {
            servers,
            shards,
            data,
        }
    }

    /// Returns how far the server's restart has come. Among several processes only the leader knows more than whether
    /// requests reach it.
    fn standing(&self, server: u16) -> Option<ServerState> {
        let standing = self.cluster.presence.state(server)?;
        let is_away = match &self.cluster.storage {
            Storage::Memory(_) | Storage::Folder(_) => return Some(standing),
            Storage::Etcd(etcd) => etcd.durable().is_away(server),
        };
        Some(match (is_away, standing.is_reached()) {
            (true, true) => ServerState::Failed,
            (false, false) => ServerState::Up,
            (true, false) | (false, true) => standing,
        })
    }

    fn server(&self, server: u16, shards: &[ShardStatus]) -> ServerStatus {
        let index = usize::from(server) - 1;
        let inlets = self.cluster.inlets().iter();
        let admissions = inlets.map(|it| it.stats().servers[index].admissions.get());
        let doing = self.cluster.progress.of(server);
        ServerStatus {
            server,
            standing: self.standing(server).map_or("unknown", |it| it.name()),
            domain: self.cluster.presence.domain_of(server),
            shards: shards.iter().filter(|it| it.owner == server).count(),
            admissions: self.cluster.storage.has_counts().then(|| admissions.sum()),
            doing: doing.map(|it| it.to_string()),
            process: self.cluster.storage.peers().map(|it| process(it, server)),
        }
    }
}

/// Returns the state of the server's process, as this one sees it.
fn process(peers: &Peers, server: u16) -> ProcessStatus {
    let members = peers.member().members();
    let live = members.get(&server);
    ProcessStatus {
        number: live.map_or(0, |it| it.process),
        leads: live.is_some() && peers.leader() == Some(server),
        followed: live.map_or(0, |it| it.followed.0),
        servers: live.map_or_else(String::new, |it| it.addresses.servers.clone()),
        clients: live.map_or_else(String::new, |it| it.addresses.clients.clone()),
    }
}

impl fmt::Debug for Observer {
    fn fmt(&self, f: &mut fmt::Formatter<'_>) -> fmt::Result {
        f.debug_struct("Observer").finish_non_exhaustive()
    }
}
