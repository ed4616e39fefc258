use crate::application::Application;
use crate::gateway::Gateway;
use crate::http_listener::HttpListener;
use crate::metrics::Metrics;
use crate::sidecar_service::SidecarService;
use crate::{SidecarError, SidecarOptions};
use durkenzo_fleet::{Fleet, Router, Safety};
use durkenzo_store::Store;
use std::io;
use std::net::SocketAddr;
use std::sync::Arc;
use std::time::{Duration, Instant};
use tokio::net::TcpListener;
use tokio::runtime::{Builder, Runtime};
use tokio::signal::unix::{signal, SignalKind};
use tokio::time::sleep;

/// How often this process looks whether the application takes connections.
const LOOK: Duration = Duration::from_millis(100);
/// The longest time for tasks when the process ends.
const END: Duration = Duration::from_millis(200);

/// A process of a fleet, whose service is an application beside it.
pub struct Sidecar {
    fleet: Arc<Fleet<SidecarService>>,
    listener: Arc<HttpListener>,
    clients: SocketAddr,
    /// It is taken when the sidecar ends.
    runtime: Option<Runtime>,
}

impl Sidecar {
    /// Waits until the application takes connections, joins the fleet, and begins to answer clients.
    ///
    /// # Errors
    ///
    /// If the application isn't there in time, if the options don't go together, or if the fleet can't be joined.
    pub fn begin(options: SidecarOptions) -> Result<Sidecar, SidecarError> {
        let store = options.fleet.store()?;
        Sidecar::begin_over(options, store)
    }

    /// Begins as [`Sidecar::begin`] does, but over this store.
    ///
    /// # Errors
    ///
    /// The same as for [`Sidecar::begin`].
    pub fn begin_over(
        mut options: SidecarOptions,
        store: Arc<dyn Store>,
    ) -> Result<Sidecar, SidecarError> {
        if options.calls == 0 {
            return Err(SidecarError::NoCalls);
        }
        let socket = options.fleet.listen_for_clients()?;
        let clients = socket.local_addr()?;
        if !clients.ip().is_loopback() && !options.fleet.open {
            return Err(SidecarError::Open(clients));
        }
        if let Some(advertised) = options.clients_advertise.take() {
            options.fleet.clients = Some(advertised);
        }
        socket.set_nonblocking(true)?;
        let runtime = Builder::new_multi_thread().enable_all().build()?;
        let metrics = Arc::new(Metrics::new().map_err(io::Error::other)?);
        let application = Application::new(options.application.clone(), runtime.handle().clone());
        await_application(&runtime, &application, &options)?;
        let service = SidecarService::new(application, metrics.clone(), &options);
        let fleet = Fleet::join_over(service, options.fleet.clone(), store.clone())?;
        let router = Router::watch_with(&*store, Safety::of(&options.fleet.safety)?)?;
        let fleet = Arc::new(fleet);
        let gateway = Gateway::new((fleet.clone(), router.into()), metrics, &options);
        let gateway = Arc::new(gateway);
        let listener = HttpListener::new(gateway.clone(), options.fleet.connections);
        let sidecar = Sidecar {
            fleet,
            listener: Arc::new(listener),
            clients,
            runtime: Some(runtime),
        };
        sidecar.answer(&gateway, socket)?;
        Ok(sidecar)
    }

    /// Begins the tasks that answer clients.
    fn answer(&self, gateway: &Arc<Gateway>, socket: std::net::TcpListener) -> io::Result<()> {
        let Some(runtime) = &self.runtime else {
            return Ok(());
        };
        let _inside = runtime.enter();
        let (socket, listener) = (TcpListener::from_std(socket)?, self.listener.clone());
        runtime.spawn(async move { listener.accept(socket).await });
        let following = gateway.clone();
        runtime.spawn(async move { following.follow().await });
        let (leaving, mut asked) = (gateway.clone(), signal(SignalKind::terminate())?);
        runtime.spawn(async move {
            if asked.recv().await.is_some() {
                leaving.leave();
            }
        });
        Ok(())
    }

    /// Returns the number of the server that this process runs as.
    pub fn server(&self) -> u16 {
        self.fleet.server()
    }

    /// Returns the address at which clients are answered.
    pub fn clients(&self) -> SocketAddr {
        self.clients
    }

    /// Serves until this process has left the fleet: by SIGTERM, as [`Fleet::serve`] does, or by `drain`.
    ///
    /// # Errors
    ///
    /// If the system doesn't let the process wait for signals.
    pub fn serve(self) -> Result<(), SidecarError> {
        Ok(self.fleet.serve()?)
    }

    /// Moves the shards to other servers and leaves, within this time.
    pub fn stop(self, grace: Duration) {
        self.fleet.stop(grace);
    }

    /// Leaves at once, with the shards that are still here.
    pub fn leave(self) {
        self.fleet.leave();
    }
}

impl Drop for Sidecar {
    fn drop(&mut self) {
        self.fleet.service().end();
        if self.fleet.is_leased() {
            self.fleet.leave();
        }
        if let Some(runtime) = self.runtime.take() {
            runtime.block_on(self.listener.end());
            runtime.shutdown_timeout(END);
        }
    }
}

impl std::fmt::Debug for Sidecar {
    fn fmt(&self, f: &mut std::fmt::Formatter<'_>) -> std::fmt::Result {
        f.debug_struct("Sidecar")
            .field("server", &self.server())
            .field("clients", &self.clients)
            .finish_non_exhaustive()
    }
}

/// Waits until the application takes connections.
fn await_application(
    runtime: &Runtime,
    application: &Application,
    options: &SidecarOptions,
) -> Result<(), SidecarError> {
    let within = Duration::from_secs(options.application_start);
    let end = Instant::now() + within;
    runtime.block_on(async {
        while !application.is_reached().await {
            if Instant::now() >= end {
                let at = options.application.clone();
                return Err(SidecarError::NoApplication(at, within));
            }
            sleep(LOOK).await;
        }
        Ok(())
    })
}
