use super::routes::{compact, routes};
use crate::cluster::Cluster;
use crate::observer::Observer;
use durkenzo::PassFault;
use durkenzo_control::control::{Balance, ControlHost, Doing, ReplyTo};
use durkenzo_driver::{ControlCommand, ServerState};
use std::fmt;
use std::sync::atomic::Ordering;
use std::sync::{Arc, Mutex, MutexGuard, PoisonError};
use std::time::Duration;

/// This cluster, as its control sees it.
pub struct ClusterHost {
    cluster: Arc<Cluster>,
    observer: Mutex<Observer>,
}

impl ClusterHost {
    /// Makes the host of this cluster's control.
    ///
    /// # Errors
    ///
    /// If there is no pass of the cluster's board.
    pub fn new(cluster: Arc<Cluster>) -> Result<ClusterHost, PassFault> {
        let observer = Mutex::new(Observer::new(cluster.clone())?);
        Ok(ClusterHost { cluster, observer })
    }

    fn observer(&self) -> MutexGuard<'_, Observer> {
        self.observer.lock().unwrap_or_else(PoisonError::into_inner)
    }
}

impl ControlHost for ClusterHost {
    fn is_stopping(&self) -> bool {
        self.cluster.is_stopping()
    }

    fn pace(&self) -> Duration {
        self.cluster.configuration.pace
    }

    fn note_state(&self, server: u16, state: ServerState) {
        if self.cluster.presence.state(server) != Some(state) {
            tracing::info!(server, standing = state.name(), "server");
            self.cluster.presence.set(server, state);
        }
    }

    fn note_progress(&self, server: u16, doing: Option<Doing>) {
        match doing {
            Some(doing) => self.cluster.progress.set(server, doing),
            None => self.cluster.progress.clear(server),
        }
    }

    fn note_change(&self, command: ControlCommand) {
        self.cluster.changes_made.add(command.word());
    }

    fn note_load(&self) {
        self.observer().renew();
    }

    fn balance(&self) -> Balance {
        self.cluster.configuration.balance
    }

    fn note_balanced(&self) {
        self.cluster.balance_moves.fetch_add(1, Ordering::Relaxed);
    }

    fn shard_line(&self, shard: u16) -> Option<String> {
        self.observer().shard(shard).map(|it| it.to_string())
    }

    fn shard_lines(&self) -> Vec<String> {
        self.observer().snapshot().shard_lines()
    }

    fn server_lines(&self) -> Vec<String> {
        self.observer().snapshot().server_lines()
    }

    fn settings_lines(&self) -> Vec<String> {
        self.cluster.settings_lines()
    }

    fn follows_settings(&self) -> bool {
        true
    }

    fn route_lines(&self) -> Vec<String> {
        let peers = self.cluster.storage.peers();
        peers.map_or_else(Vec::new, |it| routes(&self.cluster, it))
    }

    fn compact(&self, reply_to: Box<dyn ReplyTo>) {
        compact(&self.cluster, reply_to);
    }
}

impl fmt::Debug for ClusterHost {
    fn fmt(&self, f: &mut fmt::Formatter<'_>) -> fmt::Result {
        f.debug_struct("ClusterHost").finish_non_exhaustive()
    }
}
