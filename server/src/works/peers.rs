use super::forwarded_step::ForwardedStep;
use super::host::{ControlInlet, ServerHost};
use super::peer_command::PeerCommand;
use super::step_destination::StepDestination;
use crate::cluster::Cluster;
use crate::control::{Again, Asked};
use durkenzo_control::links::{checksum, LinkCounts, LinkStatus, Links, NotAccepted, Terms};
use durkenzo_driver::{Durable, Elsewhere, HandOver, Member, WorkStep};
use std::collections::BTreeMap;
use std::fmt;
use std::io;
use std::net::TcpListener;
use std::sync::mpsc::SyncSender;
use std::sync::Arc;
use std::thread::JoinHandle;
use std::time::Duration;

/// The other processes of a cluster, as this one reaches them.
pub struct Peers {
    links: Links<ServerHost>,
    control: ControlInlet,
}

impl Peers {
    /// Makes the peers of this process's server, on these terms. Works wait for so long.
    pub fn new(terms: Terms, member: Arc<Member>, wait: Duration) -> Peers {
        Peers {
            links: Links::new(terms, member, wait),
            control: ControlInlet::default(),
        }
    }

    /// Returns this process's server, and the others that are there.
    pub fn member(&self) -> &Member {
        self.links.member()
    }

    /// Returns the server whose process leads, if one does.
    pub fn leader(&self) -> Option<u16> {
        self.links.leader()
    }

    /// Adopts these settings from now on, which have so many servers.
    pub fn go_by(&self, settings: &[u8], servers: u16) {
        self.links.go_by(checksum(settings), servers);
    }

    /// Returns the function that sends works to the process of the server that executes them.
    pub fn hand_over(&self) -> HandOver {
        let links = self.links.clone();
        Box::new(move |elsewhere: Elsewhere, steps: Vec<WorkStep>| {
            let steps = steps.into_iter().map(ForwardedStep).collect();
            links.forward(&StepDestination(elsewhere), steps);
        })
    }

    /// Gives the command to the control in this server's process. If it isn't done, the command waits again if it may,
    /// and otherwise is refused.
    pub fn ask_control(&self, server: u16, asked: Asked, again: Option<Again>) {
        let command = PeerCommand::new(asked, again);
        self.links.ask_control(server, command);
    }

    /// Returns the counts of the traffic between this process and others.
    pub fn counts(&self) -> &LinkCounts {
        self.links.counts()
    }

    /// Returns to how many processes this one is connected, and how many are connected to it.
    pub fn connections(&self) -> (usize, usize) {
        self.links.connections()
    }

    /// Returns whether this process reaches each server that is there and that it has asked.
    pub fn statuses(&self) -> BTreeMap<u16, LinkStatus> {
        self.links.statuses()
    }

    /// Begins to answer the processes that connect, with these shards and this control, until it is stopped.
    ///
    /// # Errors
    ///
    /// If the system gives no thread.
    pub fn begin(
        &self,
        listener: TcpListener,
        durable: &Arc<Durable>,
        cluster: &Arc<Cluster>,
        control: SyncSender<Asked>,
    ) -> io::Result<JoinHandle<()>> {
        let host = self.host(durable, cluster, control);
        let servers = cluster.presence.servers();
        self.links.begin(listener, servers, host)
    }

    /// Gives other processes' commands to this control, and returns the host that answers them.
    fn host(
        &self,
        durable: &Arc<Durable>,
        cluster: &Arc<Cluster>,
        control: SyncSender<Asked>,
    ) -> ServerHost {
        self.control.set(Some(control));
        ServerHost {
            server: self.member().server(),
            durable: Arc::downgrade(durable),
            cluster: Arc::downgrade(cluster),
            control: self.control.clone(),
        }
    }

    /// Asks the other processes that are there whether they accept this one, which must answer them by now.
    ///
    /// # Errors
    ///
    /// If one that joined earlier refuses this one because of its secret, and none accepts it.
    pub fn be_accepted(&self) -> Result<(), NotAccepted<io::Error>> {
        self.links.be_accepted()
    }

    /// Stops giving other processes' commands to the control.
    pub fn leave_control(&self) {
        self.control.set(None);
    }

    /// Begins nothing more for other processes, and tells them so.
    pub fn close(&self) {
        self.leave_control();
        self.links.close();
    }

    /// Leaves the cluster, so that others give this server's shards owners at once. Lets them read their last answers,
    /// and ends all connections.
    pub fn leave(&self) {
        self.leave_control();
        self.links.leave();
    }
}

/// The functions of a simulation, which has no threads and no sockets.
#[cfg(feature = "simulated")]
impl Peers {
    /// Makes the peers over these links, whose bytes the caller moves.
    pub fn simulated(links: Links<ServerHost>) -> Peers {
        Peers {
            links,
            control: ControlInlet::default(),
        }
    }

    /// Begins as [`Peers::begin`] does. The caller accepts the connections.
    pub fn begin_without_threads(
        &self,
        durable: &Arc<Durable>,
        cluster: &Arc<Cluster>,
        control: SyncSender<Asked>,
    ) {
        let host = self.host(durable, cluster, control);
        let servers = cluster.presence.servers();
        self.links.begin_without_threads(servers, host);
    }
}

impl fmt::Debug for Peers {
    fn fmt(&self, f: &mut fmt::Formatter<'_>) -> fmt::Result {
        f.debug_struct("Peers").finish_non_exhaustive()
    }
}
