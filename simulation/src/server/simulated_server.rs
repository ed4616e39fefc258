use super::server_keys::ServerKeys;
use super::serving_thread::{ServingThread, WokenInlet};
use crate::machine_clock::MachineClock;
use durkenzo_control::control::Asked;
use durkenzo_control::links::{Admission as Admits, Identity, Links, Secret, Terms};
use durkenzo_driver::{Clock, Durable, Member, Reads};
use durkenzo_server::cluster::Cluster;
use durkenzo_server::command::TABLE;
use durkenzo_server::configuration::Configuration;
use durkenzo_server::keyspace::Rule;
use durkenzo_server::storage::{OnEtcd, Storage};
use durkenzo_server::works::{Peers, ServerHost};
use durkenzo_store::StoreCounts;
use std::sync::mpsc::{sync_channel, Receiver};
use std::sync::Arc;
use std::time::Duration;

/// The checksum of the settings that all processes have, and the secret that each of them knows.
const SETTINGS: u64 = 7;
const SECRET: &[u8] = b"a secret";
/// How many requests wait for a control.
const MOST_ASKED: usize = 16;

/// How processes serve clients that speak RESP.
#[derive(Clone)]
pub struct SimulatedServerShape {
    pub keys: ServerKeys,
    pub servers: u16,
    /// How long a command waits.
    pub wait: Duration,
}

/// The part of a process that serves clients.
pub struct SimulatedServer {
    cluster: Arc<Cluster>,
    /// The thread that owns the connections.
    pub thread: ServingThread,
    /// The links to other processes.
    pub links: Links<ServerHost>,
    asked: Receiver<Asked>,
}

impl SimulatedServerShape {
    /// Returns the links of this member's process, and the other processes that it reaches by them.
    pub fn reach(
        &self,
        member: &Arc<Member>,
        clock: &MachineClock,
    ) -> (Links<ServerHost>, Arc<Peers>) {
        let identity = Identity {
            server: member.server(),
            settings: SETTINGS,
            process: member.process(),
            table: TABLE,
        };
        let terms = Terms {
            identity,
            secret: Secret::of(SECRET),
            tls: None,
            admits: Admits::Processes,
        };
        let links = Links::without_threads(terms, member.clone(), self.wait, by(clock));
        let peers = Peers::simulated(links.clone());
        (links, Arc::new(peers))
    }

    /// Begins to serve clients and other processes with these shards.
    pub fn serve(
        &self,
        (links, peers): (Links<ServerHost>, Arc<Peers>),
        durable: &Arc<Durable>,
        clock: &MachineClock,
    ) -> SimulatedServer {
        let configuration = Configuration {
            servers: self.servers,
            wait: self.wait,
            reads: Reads::Exact,
            ..Configuration::new(Rule::Bounds(self.keys.bounds()))
        };
        let counts = Arc::new(StoreCounts::new(clock.now()));
        let storage = Storage::Etcd(OnEtcd::new(durable.clone(), peers.clone(), counts));
        let cluster = Arc::new(Cluster::by(configuration, storage, by(clock)));
        let inlet = WokenInlet::new(self.servers);
        cluster.set_inlets([inlet.inlet.clone()].into());
        let (control, asked) = sync_channel(MOST_ASKED);
        peers.begin_without_threads(durable, &cluster, control.clone());
        SimulatedServer {
            thread: ServingThread::begin(&cluster, inlet, control),
            cluster,
            links,
            asked,
        }
    }
}

fn by(clock: &MachineClock) -> Clock {
    let clock = clock.clone();
    Clock::new(move || clock.now())
}

impl SimulatedServer {
    /// Takes a request that a client has for the control.
    pub fn take_asked(&self) -> Option<Asked> {
        self.asked.try_recv().ok()
    }

    /// Makes the thread answer what came, and then end.
    pub fn stop(&self) {
        self.cluster.stop();
    }

    /// Returns whether the thread must end.
    pub fn is_stopping(&self) -> bool {
        self.cluster.is_stopping()
    }
}
