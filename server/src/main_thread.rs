//! The work of the main thread once the other threads run.
use crate::cluster::Cluster;
use crate::departure::Departure;
use crate::http;
use crate::lease_log::LeaseLog;
use crate::memory::{Trimmer, CEILING};
use crate::run::BoxError;
use std::io;
use std::net::SocketAddr;
use std::sync::Arc;
use std::time::Duration;
use tokio::net::TcpListener;
use tokio::runtime::{Builder, Runtime};
use tokio::signal::unix::{signal, Signal, SignalKind};

/// Serves the page, and waits for a signal that ends the server.
///
/// Once it is made, a signal no longer ends the process at once: [`MainThread::run`] handles a signal that came before.
pub struct MainThread {
    runtime: Runtime,
    terminate: Signal,
    interrupt: Signal,
    page: Option<TcpListener>,
}

impl MainThread {
    /// Takes the signals.
    ///
    /// # Errors
    ///
    /// If the system refuses the means to wait for signals.
    pub fn new() -> io::Result<MainThread> {
        let runtime = Builder::new_current_thread().enable_all().build()?;
        let (terminate, interrupt) = {
            let _within = runtime.enter();
            (
                signal(SignalKind::terminate())?,
                signal(SignalKind::interrupt())?,
            )
        };
        Ok(MainThread {
            runtime,
            terminate,
            interrupt,
            page: None,
        })
    }

    /// Reserves this address for the page. Clients that connect wait until [`MainThread::run`].
    ///
    /// # Errors
    ///
    /// If it is taken, or isn't an address of this machine.
    pub fn bind_page(&mut self, address: SocketAddr) -> Result<(), BoxError> {
        let told = |error| format!("{address}: {error}; --http-port takes another port");
        let bound = self.runtime.block_on(TcpListener::bind(address));
        self.page = Some(bound.map_err(told)?);
        Ok(())
    }

    /// Serves the page, if it has an address, until a signal comes, or until a thread of the cluster or its store ends.
    /// After SIGTERM the server first gives its shards away, unless another signal comes.
    ///
    /// # Errors
    ///
    /// If the page can't be served, or no signal ended it.
    pub(crate) fn run(self, cluster: &Arc<Cluster>, departure: Departure) -> Result<(), BoxError> {
        let MainThread {
            runtime,
            mut terminate,
            mut interrupt,
            page,
        } = self;
        let site = async {
            match page {
                None => std::future::pending().await,
                Some(listener) => http::serve(cluster.clone(), listener).await,
            }
        };
        let stopped = async {
            tokio::select! {
                _ = interrupt.recv() => return,
                _ = terminate.recv() => {}
            }
            tokio::select! {
                () = departure.give_shards_away(cluster) => {}
                _ = terminate.recv() => {}
                _ = interrupt.recv() => {}
            }
        };
        runtime.block_on(async {
            tokio::select! {
                ended = site => return ended,
                ended = ended(cluster) => return ended,
                () = stopped => {}
            }
            tracing::info!("stopping");
            Ok(())
        })
    }
}

/// Waits for the end of a thread or of the store. Meanwhile it looks after memory, and tells the log of the lease.
async fn ended(cluster: &Cluster) -> Result<(), BoxError> {
    let (mut trimmer, mut lease_log) = (Trimmer::default(), LeaseLog::default());
    let mut tick = tokio::time::interval(Duration::from_millis(200));
    loop {
        tick.tick().await;
        CEILING.look();
        trimmer.look();
        if let Some(peers) = cluster.storage.peers() {
            lease_log.look(peers);
        }
        if cluster.is_stopping() {
            return Err("a thread ended".into());
        }
        if let Some(why) = cluster.storage.ended() {
            return Err(format!("the store has ended: {why}").into());
        }
    }
}
