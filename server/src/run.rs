//! The start and the end of the server.
use crate::admission::Admission;
use crate::cluster::Cluster;
use crate::command::Executor;
use crate::configuration::Configuration;
use crate::control::{Asked, Backend, Campaigner, Controller};
use crate::control::{ClusterHost, MemoryBackend, StoreBackend, MOST_ASKED};
use crate::departure::Departure;
use crate::descriptors::{Descriptors, Needs};
use crate::io::{Acceptor, Handshaker, Inlet, Worker};
use crate::join::Joined;
use crate::keyspace::Keyspace;
use crate::main_thread::MainThread;
use crate::memory::CEILING;
use crate::options::Options;
use crate::safety::Safety;
use crate::settings;
use crate::storage::{InFolder, InMemory, Storage};
use durkenzo_driver::{Clock, DurableControl};
use mio::Poll;
use std::error::Error;
use std::net::{IpAddr, Ipv4Addr, Ipv6Addr, SocketAddr};
use std::sync::mpsc::{sync_channel, Receiver, SyncSender};
use std::sync::Arc;
use std::thread::{self, JoinHandle};

/// Why the server doesn't start, or ended early.
pub type BoxError = Box<dyn Error + Send + Sync>;

/// A running thread.
type Running = JoinHandle<Result<(), BoxError>>;

/// The most threads for clients by default.
const MOST_USUAL_THREADS: usize = 4;

/// Serves until a signal ends it.
pub fn run(options: &Options) -> Result<(), BoxError> {
    CEILING.set(options.max_memory.0);
    let mut main_thread = MainThread::new()?;
    let mut configuration = Configuration::of(options)?;
    let address = SocketAddr::new(options.bind, options.port);
    let told = |error| format!("{address}: {error}; --port takes another port");
    let listener = Acceptor::bind(address).map_err(told)?;
    // A process joins others only when nothing on this machine keeps it from serving.
    if options.http_port > 0 {
        let address = page_address(options, &configuration.safety);
        main_thread.bind_page(SocketAddr::new(address, options.http_port))?;
    }
    let joined = joined(options, &mut configuration, listener.local_addr()?)?;
    configuration.fit(Descriptors::raised(needs(options, &configuration)));
    let storage = storage(options, &configuration, joined.as_ref())?;
    let cluster = Arc::new(Cluster::new(configuration, storage));
    let (control, asked) = sync_channel(MOST_ASKED);
    let polls = polls(options, &cluster)?;
    let controlling = controlling(options, &cluster, asked)?;
    let acceptor = Acceptor::new(cluster.clone(), listener)?;
    announce(options, &cluster, acceptor.address()?);
    let waker = acceptor.waker();
    let mut threads = workers(&cluster, polls, &control)?;
    let begin = |it: Joined| it.begin(&cluster, control.clone());
    let between = joined.map(begin).transpose()?;
    let departure = Departure::new(control);
    threads.push(spawn(&cluster, "acceptor", move || {
        acceptor.run();
        Ok(())
    })?);
    threads.push(spawn(&cluster, "control", move || {
        controlling();
        Ok(())
    })?);
    let served = main_thread.run(&cluster, departure);
    cluster.stop();
    waker.wake()?;
    let ended = end(&cluster, threads, between);
    tracing::info!("stopped");
    ended.and(served)
}

/// Waits until each thread has ended, and then leaves the store and the other processes.
fn end(
    cluster: &Cluster,
    threads: Vec<Running>,
    between: Option<JoinHandle<()>>,
) -> Result<(), BoxError> {
    // From here on only clients ask the control.
    cluster.storage.leave_control();
    let ended = threads.into_iter().map(|it| {
        let panicked = |_| Err("a thread panicked".into());
        it.join().unwrap_or_else(panicked)
    });
    // All threads are joined.
    let ended = ended.fold(Ok(()), Result::and);
    cluster.storage.stop();
    // A thread that panicked has logged that.
    let _ = between.map(JoinHandle::join);
    ended
}

/// Returns the server of a cluster of several processes that this process becomes, if the options say so.
fn joined(
    options: &Options,
    configuration: &mut Configuration,
    clients: SocketAddr,
) -> Result<Option<Joined>, BoxError> {
    let joined = options
        .join
        .server()
        .map(|it| Joined::new(&options.join, it, configuration, clients));
    joined.transpose()
}

/// Returns the storage that the options choose.
fn storage(
    options: &Options,
    configuration: &Configuration,
    joined: Option<&Joined>,
) -> Result<Storage, BoxError> {
    Ok(match (joined, &options.data) {
        (Some(joined), _) => Storage::Etcd(joined.storage()),
        (None, Some(folder)) => {
            Storage::Folder(InFolder::open(folder, options.sync, configuration)?)
        }
        (None, None) => Storage::Memory(Arc::new(InMemory::new(configuration)?)),
    })
}

/// Returns the work of the control's thread. By then all shards have owners, unless the options say otherwise.
fn controlling(
    options: &Options,
    cluster: &Arc<Cluster>,
    asked: Receiver<Asked>,
) -> Result<Box<dyn FnOnce() + Send>, BoxError> {
    let assigns = !options.vacant;
    let host = Arc::new(ClusterHost::new(cluster.clone())?);
    let line = || settings::line(&cluster.configuration);
    let backend: Box<dyn Backend> = match &cluster.storage {
        Storage::Memory(memory) => Box::new(MemoryBackend::new(cluster.clone(), memory.clone())?),
        Storage::Folder(folder) => {
            let control = DurableControl::lead(folder.durable().clone(), &line())?;
            Box::new(StoreBackend::alone(control, folder.durable().clone()))
        }
        Storage::Etcd(etcd) => {
            let (durable, peers) = (etcd.durable().clone(), etcd.peers().clone());
            let campaigner = Campaigner::new(host, durable, peers, line(), assigns);
            return Ok(Box::new(move || campaigner.run(asked)));
        }
    };
    let mut controller = Controller::new(host, backend, Clock::default());
    controller.begin(assigns)?;
    Ok(Box::new(move || controller.run(asked)))
}

/// Returns the page's address. The page asks for no password. So if clients need one, the page is on this machine only,
/// unless an option says otherwise.
fn page_address(options: &Options, safety: &Safety) -> IpAddr {
    let usual = match options.bind {
        it if it.is_loopback() || !safety.is_by_password_alone() => it,
        IpAddr::V4(_) => Ipv4Addr::LOCALHOST.into(),
        IpAddr::V6(_) => Ipv6Addr::LOCALHOST.into(),
    };
    options.http_bind.unwrap_or(usual)
}

/// Returns how many threads there are for clients.
fn threads(options: &Options) -> usize {
    let processors = thread::available_parallelism().map_or(1, usize::from);
    // One processor is left to clients, which often run on the same machine.
    let usual = processors.saturating_sub(1).clamp(1, MOST_USUAL_THREADS);
    options.threads.map_or(usual, usize::from)
}

/// Returns the needs for descriptors beside those of clients.
fn needs(options: &Options, configuration: &Configuration) -> Needs {
    let others = usize::from(configuration.servers).saturating_sub(1);
    // If clients speak TLS, each thread has another one beside it, which does their handshakes.
    let each = 1 + usize::from(configuration.safety.tls.is_some());
    Needs {
        threads: each * threads(options),
        has_page: options.http_port > 0,
        peers: options.join.server().map(|_| others),
    }
}

/// Makes the poll of each thread for clients, and gives the cluster their inlets.
fn polls(options: &Options, cluster: &Cluster) -> Result<Vec<Poll>, BoxError> {
    let polls = (0..threads(options))
        .map(|_| Poll::new())
        .collect::<Result<Vec<_>, _>>()?;
    let configuration = &cluster.configuration;
    let is_guarded = configuration.safety.is_guarded();
    let of_each = is_guarded.then(|| configuration.most_strangers / polls.len());
    let inlets = polls
        .iter()
        .map(|it| Inlet::new(it, configuration.servers).map(|it| it.with_most_strangers(of_each)))
        .map(|it| it.map(Arc::new));
    cluster.set_inlets(inlets.collect::<Result<_, _>>()?);
    Ok(polls)
}

/// Starts the threads for clients, each with one of these polls.
fn workers(
    cluster: &Arc<Cluster>,
    polls: Vec<Poll>,
    control: &SyncSender<Asked>,
) -> Result<Vec<Running>, BoxError> {
    let mut threads = Vec::new();
    for (number, poll) in polls.into_iter().enumerate() {
        let inlet = cluster.inlets()[number].clone();
        let admission = Admission::new(cluster.clone(), inlet.stats().clone())?;
        let keyspace = Keyspace::new(&cluster.configuration.rule)?;
        let executor = Executor::new(cluster.clone(), admission, keyspace);
        let worker = Worker::new(cluster.clone(), inlet, poll, executor, control.clone())?;
        let run = move || worker.run().map_err(Into::into);
        threads.push(spawn(cluster, &format!("clients-{number}"), run)?);
    }
    threads.extend(handshakers(cluster)?);
    Ok(threads)
}

/// If clients speak TLS, starts a thread for handshakes beside each thread for clients.
fn handshakers(cluster: &Arc<Cluster>) -> Result<Vec<Running>, BoxError> {
    let inlets = cluster.inlets().iter().enumerate();
    let begin = |(number, inlet): (usize, &Arc<Inlet>)| {
        let handshaker = Handshaker::new(cluster.clone(), inlet.clone())?;
        let run = move || handshaker.run().map_err(Into::into);
        spawn(cluster, &format!("handshakes-{number}"), run)
    };
    match cluster.configuration.safety.tls {
        Some(_) => inlets.map(begin).collect(),
        None => Ok(Vec::new()),
    }
}

/// Stops the cluster when a thread ends, for whatever reason.
struct StopsAtEnd(Arc<Cluster>);

impl Drop for StopsAtEnd {
    fn drop(&mut self) {
        self.0.stop();
    }
}

fn spawn(
    cluster: &Arc<Cluster>,
    name: &str,
    work: impl FnOnce() -> Result<(), BoxError> + Send + 'static,
) -> Result<Running, BoxError> {
    let end = StopsAtEnd(cluster.clone());
    let thread = thread::Builder::new()
        .name(name.to_owned())
        .spawn(move || {
            let _end = end;
            work()
        })?;
    Ok(thread)
}

fn announce(options: &Options, cluster: &Cluster, address: SocketAddr) {
    let (servers, shards) = (cluster.configuration.servers, cluster.shards());
    let by = cluster.configuration.rule.name();
    let most_clients = cluster.configuration.most_clients;
    tracing::info!(%address, servers, shards, by, most_clients, "serving Redis clients");
    let description = cluster.storage.description();
    match &cluster.storage {
        Storage::Memory(_) => tracing::warn!("data lies {description}"),
        Storage::Folder(_) | Storage::Etcd(_) => tracing::info!("data lies {description}"),
    }
    if !options.bind.is_loopback() {
        cluster.configuration.safety.warn(address);
    }
}
