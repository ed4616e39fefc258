use super::JoinOptions;
use crate::cluster::Cluster;
use crate::command::TABLE;
use crate::configuration::Configuration;
use crate::control::Asked;
use crate::run::BoxError;
use crate::safety::Safety;
use crate::settings;
use crate::storage::{OnEtcd, Storage};
use crate::works::Peers;
use durkenzo_control::control::Balance;
use durkenzo_control::links::{checksum, Admission, Identity, Terms};
use durkenzo_driver::{keys, Acks, Addresses, Durable, JoinFault, Member, Own};
use durkenzo_store::{
    Etcd, MeasuredStore, PrefixedStore, ReadError, Seen, Store, StoreCounts, Watch, WriteError,
};
use std::net::{SocketAddr, TcpListener};
use std::sync::mpsc::SyncSender;
use std::sync::Arc;
use std::thread::JoinHandle;
use std::time::Duration;

/// A server of a cluster of several processes. Other processes see it, but it doesn't answer them yet.
#[derive(Debug)]
pub struct Joined {
    durable: Arc<Durable>,
    peers: Arc<Peers>,
    counts: Arc<StoreCounts>,
    listener: TcpListener,
}

impl Joined {
    /// Makes the server of these options, whose clients connect to this address.
    ///
    /// # Errors
    ///
    /// There is no such server, another process runs it, the store can't be reached or has other settings, or processes
    /// without the secret could connect.
    pub fn new(
        options: &JoinOptions,
        server: u16,
        configuration: &mut Configuration,
        clients: SocketAddr,
    ) -> Result<Joined, BoxError> {
        let (etcd, prefix) = (Etcd::new(options.access()?)?, options.key_prefix());
        if !prefix.is_empty() {
            tracing::info!(%prefix, "the cluster's keys in etcd begin with a prefix");
        }
        let store = MeasuredStore::new(PrefixedStore::new(etcd, prefix));
        let (counts, store): (_, Arc<dyn Store>) = (store.counts().clone(), Arc::new(store));
        let named = |fault| at_etcd(fault, &options.etcd);
        let settings = settings_in(&*store, server, configuration).map_err(named)?;
        configuration.safety.may_listen(options.listen)?;
        let listener = TcpListener::bind(options.listen);
        let listener = listener.map_err(|error| format!("{}: {error}", options.listen))?;
        let addresses = options.addresses(listener.local_addr()?, clients);
        let member = member(&store, server, addresses, options.lease);
        let member = Arc::new(member.map_err(|fault| named(fault.into()))?);
        let terms = terms(&member, settings, &configuration.safety);
        let peers = Arc::new(Peers::new(terms, member.clone(), configuration.wait));
        let elsewhere = peers.hand_over();
        let own = Own {
            member,
            elsewhere,
            acks: Acks::AsRead,
        };
        let (shards, shard_options) = (configuration.rule.shards(), configuration.shard_options());
        let durable = Durable::open_one(store, shards, shard_options, own, Box::new(|| {}))?;
        if configuration.balance != Balance::Off {
            durable.measure_loads();
        }
        Ok(Joined {
            durable: Arc::new(durable),
            peers,
            counts,
            listener,
        })
    }

    /// Returns the data's store.
    pub fn storage(&self) -> OnEtcd {
        OnEtcd::new(
            self.durable.clone(),
            self.peers.clone(),
            self.counts.clone(),
        )
    }

    /// Begins to answer other processes, and asks them whether they accept this one.
    ///
    /// # Errors
    ///
    /// If the system refuses a thread, or the secret of this process isn't that of the others. The process has left
    /// then.
    pub fn begin(
        self,
        cluster: &Arc<Cluster>,
        control: SyncSender<Asked>,
    ) -> Result<JoinHandle<()>, BoxError> {
        let answering = self
            .peers
            .begin(self.listener, &self.durable, cluster, control)?;
        if let Err(refusal) = self.peers.be_accepted() {
            self.peers.leave();
            let all = "give all the same, by --peer-secret-file or DURKENZO_PEER_SECRET";
            return Err(format!("{refusal}: {all}").into());
        }
        // From here on it adopts the settings that replace these.
        let watch = follow_settings(cluster, &**self.durable.store())?;
        if let Storage::Etcd(etcd) = &cluster.storage {
            etcd.keep(watch);
        }
        Ok(answering)
    }
}

/// Joins the other processes as this server, under a lease of so many seconds.
fn member(
    store: &Arc<dyn Store>,
    server: u16,
    addresses: Addresses,
    lease: u64,
) -> Result<Member, JoinFault> {
    let Addresses { servers, clients } = &addresses;
    tracing::info!(server, at = servers, clients, "joining");
    let lease = Duration::from_secs(lease);
    // Whoever wants to know which processes are there looks often enough.
    Member::join(store.clone(), server, addresses, lease, Box::new(|| {}))
}

/// Checks that there is such a server.
fn is_named(server: u16, most: u16) -> Result<(), BoxError> {
    match server <= most {
        true => Ok(()),
        false => Err(format!(
            "--name {server}: there are servers 1 to {most}; SM RESIZE has more of them"
        )
        .into()),
    }
}

/// Returns the fault. If etcd doesn't answer, adds the addresses that were asked, and what to check.
fn at_etcd(fault: BoxError, members: &[String]) -> BoxError {
    let by_write = fault.downcast_ref().map(WriteError::is_unanswered);
    let by_join = fault.downcast_ref().map(JoinFault::is_unanswered);
    let by_read = fault.downcast_ref().map(ReadError::is_unanswered);
    match by_write.or(by_join).or(by_read) {
        Some(true) => {
            let at = members.join(",");
            let ask = "is it running there, with most of its members, and has it room? --etcd names them, \
                       --etcd-ca who vouches for them, and etcdctl alarm list tells of room";
            format!("etcd at {at}: {fault}; {ask}").into()
        }
        Some(false) | None => fault,
    }
}

/// Adopts the settings in force, and returns their checksum, by which all processes of the cluster recognize them.
/// Fails if they don't have this server.
fn settings_in(
    store: &dyn Store,
    server: u16,
    configuration: &mut Configuration,
) -> Result<u64, BoxError> {
    if !settings::has_settings(store)? {
        is_named(server, configuration.servers)?;
    }
    let otherwise = "name another cluster of etcd, or another --prefix";
    let settings = settings::agree_in_force(store, "the cluster", otherwise, configuration)?;
    configuration.go_by(&settings)?;
    is_named(server, configuration.servers)?;
    Ok(checksum(settings.as_bytes()))
}

/// Makes the cluster adopt each line of settings that replaces the one in force.
fn follow_settings(cluster: &Arc<Cluster>, store: &dyn Store) -> Result<Watch, ReadError> {
    let cluster = Arc::downgrade(cluster);
    let go_by = move |settings: &[u8]| {
        if let Some(cluster) = cluster.upgrade() {
            cluster.go_by(settings);
        }
    };
    let watcher = move |seen: Seen| match seen {
        Seen::All(reading) => reading.pairs.iter().for_each(|it| go_by(&it.value)),
        Seen::Changes(_, changes) => {
            let written = changes.iter().filter_map(|it| it.value.as_deref());
            written.for_each(&go_by);
        }
    };
    store.watch(keys::SETTINGS, Box::new(watcher))
}

/// Returns how this process and the others recognize each other.
fn terms(member: &Member, settings: u64, safety: &Safety) -> Terms {
    Terms {
        identity: Identity {
            server: member.server(),
            settings,
            process: member.process(),
            table: TABLE,
        },
        secret: safety.peer_secret.clone(),
        tls: safety.peer_tls.clone(),
        admits: Admission::Processes,
    }
}
