use crate::connections::Connections;
use crate::fleet_inner::{own, FleetInner};
use crate::follower_threads::{self, Notices};
use crate::host;
use crate::introduction::Introduction;
use crate::listener::Listener;
use crate::settings::Settings;
use crate::threads::{block_on, Threads};
use crate::{
    settings, Balance, Destination, Enter, JoinError, MeetError, Mode, Options, Safety, Service,
    Sharding,
};
use durkenzo_control::descriptors::raise_limit;
use durkenzo_control::links::be_accepted;
use durkenzo_driver::{Addresses, Durable, JoinFault, Member, ShardOptions};
use durkenzo_store::Store;
use std::fmt;
use std::io;
use std::net::SocketAddr;
use std::sync::atomic::Ordering;
use std::sync::Arc;
use std::thread;
use std::time::Duration;
use tokio::runtime;
use tokio::signal::unix::{signal, Signal, SignalKind};
use tokio::sync::Notify;

/// A process of a fleet. It follows the records, holds bodies, and answers clients and other processes, until it
/// leaves.
pub struct Fleet<S: Service> {
    pub(crate) inner: Arc<FleetInner<S>>,
    listener: Listener,
    address: SocketAddr,
    left: Notify,
}

impl<S: Service> Fleet<S> {
    /// Joins the fleet that these options name, as one of its servers, and begins to answer.
    ///
    /// # Errors
    ///
    /// [`JoinError`] lists the reasons. For example, another process may already run with this server's name.
    pub fn join(service: S, options: Options) -> Result<Fleet<S>, JoinError> {
        let store = options.store()?;
        Fleet::join_over(service, options, store)
    }

    /// Joins as [`Fleet::join`] does, but over this store.
    ///
    /// # Errors
    ///
    /// The same as for [`Fleet::join`].
    pub fn join_over(
        service: S,
        options: Options,
        store: Arc<dyn Store>,
    ) -> Result<Fleet<S>, JoinError> {
        let settings = options.settings()?;
        let safety = options.guarded()?;
        // Each connection needs a file descriptor.
        raise_limit();
        let (listener, address) = Listener::bind(options.listen, options.connections)?;
        let at = options
            .advertise
            .clone()
            .unwrap_or_else(|| address.to_string());
        let (notices, noticed) = Notices::new();
        let (inner, threads) =
            joined((service, options, settings), (at, &safety), store, &notices)?;
        // If a step below fails, dropping this makes the process leave.
        let fleet = Fleet {
            inner,
            listener,
            address,
            left: Notify::new(),
        };
        // The process answers before it asks. So of two that begin together, the later one is answered.
        fleet.listener.begin(&fleet.inner, &threads)?;
        accepted(&fleet.inner.member, threads.connections())?;
        follower_threads::begin(&fleet.inner, noticed)?;
        host::begin(&fleet.inner, &threads)?;
        Ok(fleet)
    }

    /// Serves until this process leaves the fleet. On SIGTERM the process [stops](Fleet::stop), within `--grace`. On a
    /// second SIGTERM it leaves at once, with the shards that it still has.
    ///
    /// # Errors
    ///
    /// If the system doesn't let the process wait for signals.
    pub fn serve(&self) -> io::Result<()> {
        let runtime = runtime::Builder::new_current_thread().enable_io().build()?;
        let mut asked = runtime.block_on(async { signal(SignalKind::terminate()) })?;
        if !runtime.block_on(self.is_asked(&mut asked)) {
            return Ok(());
        }
        let grace = Duration::from_secs(self.inner.options.grace);
        thread::scope(|scope| {
            let stopping = thread::Builder::new().name("stop".to_owned());
            if stopping.spawn_scoped(scope, || self.stop(grace)).is_err() {
                self.stop(grace);
            } else if runtime.block_on(self.is_asked(&mut asked)) {
                self.inner.leaves_at_once.store(true, Ordering::Release);
            }
        });
        Ok(())
    }

    /// Waits until this process is asked to stop, or has left. Returns whether it was asked.
    async fn is_asked(&self, asked: &mut Signal) -> bool {
        tokio::select! {
            _ = asked.recv() => true,
            () = self.left.notified() => false,
        }
    }

    /// Decides on a call that came in this mode. If this process may execute the call, returns a permit, and blocks
    /// until no other call uses the shard's body. If it may not, returns the server to which the call must go, or the
    /// reason to wait, or why the call is refused. A process with frames of its own must ask this for each call. For
    /// the frames of the fleet, that is done already.
    pub fn enter(&self, shard: u16, mode: Mode) -> Enter<'_, S> {
        block_on(self.inner.enter(shard, mode))
    }

    /// Returns the sharding: it tells the shard of each key.
    pub fn sharding(&self) -> &Sharding {
        &self.inner.sharding
    }

    /// Returns the service of this process.
    pub fn service(&self) -> &S {
        &self.inner.service
    }

    /// Returns the number of the server that this process runs as.
    pub fn server(&self) -> u16 {
        self.inner.member.server()
    }

    /// Returns the owner of the shard by the record that this process has read last, for a service that tells clients
    /// where shards are. Returns nothing if nobody owns the shard, or if there is no such shard. Who may execute is
    /// told only by [`Fleet::enter`].
    pub fn owner(&self, shard: u16) -> Option<Destination> {
        self.inner.owner(shard)
    }

    /// Returns whether this process has a lease now and isn't leaving, for a probe of readiness. Without a lease it
    /// executes nothing.
    pub fn is_leased(&self) -> bool {
        !self.inner.is_stopping() && self.inner.member.lease_left().is_some()
    }

    /// Returns the address at which this process listens.
    pub fn address(&self) -> SocketAddr {
        self.address
    }

    /// Gives the control a command, such as `["MIGRATE", "3", "2"]`, with or without `"SM"` before it. Waits for the
    /// answer and returns its lines.
    ///
    /// # Errors
    ///
    /// If the control refuses the command. The text gives the reason, and a way out.
    pub fn command(&self, words: &[&str]) -> Result<Vec<String>, String> {
        block_on(self.inner.command(words))
    }

    /// Stops this server: asks the control to move its shards to other servers, waits until that is done or the grace
    /// time is over, and leaves. If the other servers have room, no call is refused in the meantime.
    pub fn stop(&self, grace: Duration) {
        block_on(self.inner.give_way(grace));
        self.leave();
    }

    /// Leaves as soon as no call is under way, or after 5 seconds. Other servers take over the shards of this server,
    /// and the bodies that it kept in memory are lost.
    pub fn leave(&self) {
        block_on(self.inner.leave());
        self.listener.end(self.address);
        self.left.notify_one();
    }
}

impl<S: Service> Drop for Fleet<S> {
    fn drop(&mut self) {
        if !self.inner.is_stopping() {
            self.leave();
        }
    }
}

impl<S: Service> fmt::Debug for Fleet<S> {
    fn fmt(&self, f: &mut fmt::Formatter<'_>) -> fmt::Result {
        f.debug_struct("Fleet")
            .field("server", &self.server())
            .field("address", &self.address)
            .finish_non_exhaustive()
    }
}

/// Joins as the server of these options, which other processes reach at that address.
fn joined<S: Service>(
    (service, options, settings): (S, Options, Settings),
    (at, safety): (String, &Safety),
    store: Arc<dyn Store>,
    notices: &Notices,
) -> Result<(Arc<FleetInner<S>>, Arc<Threads>), JoinError> {
    let (wanted, sharding) = (settings.written(), settings.sharding);
    let settings = settings::agree(&*store, &wanted, options.name)?;
    let member = Arc::new(member(&options, at, store.clone(), notices)?);
    let process = (member.server(), member.process());
    let introduction = Introduction::of_process(safety, settings::identity(&settings), process);
    let threads = Threads::new(Connections::new(introduction));
    let (shards, shard_options, own) = (sharding.shards(), ShardOptions::default(), own(&member));
    let durable = Durable::open_one(store, shards, shard_options, own, notices.teller())?;
    if options.balance != Balance::Off {
        durable.measure_loads();
    }
    let (of_record, threads) = ((member, Arc::new(durable)), Arc::new(threads));
    let environment = threads.clone();
    let inner = FleetInner::new(
        (service, options),
        (settings, sharding),
        of_record,
        environment,
    )?;
    Ok((Arc::new(inner), threads))
}

/// Registers this process among the members of the fleet, which reach it at that address.
fn member(
    options: &Options,
    at: String,
    store: Arc<dyn Store>,
    notices: &Notices,
) -> Result<Member, JoinFault> {
    let addresses = Addresses {
        servers: at.clone(),
        clients: options.clients.clone().unwrap_or(at),
    };
    let lease = Duration::from_secs(options.lease);
    Member::join(store, options.name, addresses, lease, notices.teller())
}

/// Asks the processes that are there whether they accept this one.
fn accepted(member: &Member, connections: &Connections) -> Result<(), JoinError> {
    let ask = |_, address: &str, within| connections.connect(address, within).map(drop);
    be_accepted(member, ask, MeetError::is_refusal)
        .map_err(|it| JoinError::NotMet(it.address, it.why))
}
