use super::Refusal;
use crate::cluster::Cluster;
use durkenzo_control::control::StateWait;
use std::fmt;
use std::sync::Arc;
use std::time::{Duration, Instant};

/// How long threads may take to give back the passes of a server.
const PATIENCE: Duration = Duration::from_secs(10);

/// States of servers that each thread must have acted upon.
#[derive(Clone, Copy, Debug)]
pub(super) struct Notice {
    /// The server whose state it is, unless it is about all.
    server: Option<u16>,
    version: u64,
    end: Instant,
}

impl Notice {
    /// Notes that all threads must act upon the present state of this server, and of others.
    pub(super) fn of_server(cluster: &Cluster, server: u16) -> Notice {
        Notice::of(Some(server), cluster.presence.version())
    }

    fn of(server: Option<u16>, version: u64) -> Notice {
        let end = Instant::now() + PATIENCE;
        Notice {
            server,
            version,
            end,
        }
    }

    /// Stops requests from reaching any server for now.
    pub(super) fn of_closing(cluster: &Cluster) -> Notice {
        let version = cluster.presence.close();
        cluster.note_change();
        Notice::of(None, version)
    }

    /// Lets requests reach servers again.
    pub(super) fn of_opening(cluster: &Cluster) -> Notice {
        let version = cluster.presence.open();
        cluster.note_change();
        Notice::of(None, version)
    }

    /// Returns whether each thread has acted upon it. Fails if a thread hasn't for too long.
    pub(super) fn is_seen(&self, cluster: &Cluster) -> Result<bool, Refusal> {
        let mut inlets = cluster.inlets().iter();
        if inlets.all(|it| it.version() >= self.version) {
            return Ok(true);
        }
        if Instant::now() > self.end || cluster.is_stopping() {
            let of = self
                .server
                .map_or("all servers".to_owned(), |it| format!("server {it}"));
            let reason = format!("a thread hasn't noticed yet how {of} stands");
            return Err(Refusal::new("ThreadBusy", reason, "look at the log"));
        }
        Ok(false)
    }
}

/// A wait until the cluster's threads have acted upon a notice.
pub(super) struct NoticeWait {
    pub(super) cluster: Arc<Cluster>,
    pub(super) notice: Notice,
}

impl StateWait for NoticeWait {
    fn is_over(&self) -> Result<bool, Refusal> {
        self.notice.is_seen(&self.cluster)
    }
}

impl fmt::Debug for NoticeWait {
    fn fmt(&self, f: &mut fmt::Formatter<'_>) -> fmt::Result {
        self.notice.fmt(f)
    }
}
