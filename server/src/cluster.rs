//! The state that all threads share: how the server runs, where data lies, which servers are present, and the inlets of
//! each thread.
use crate::board_fault::BoardFault;
use crate::command::Cursors;
use crate::configuration::Configuration;
use crate::guesses::Guesses;
use crate::io::Inlet;
use crate::membership::Membership;
use crate::presence::Presence;
use crate::stats::ChangesMade;
use crate::storage::{InMemory, Storage};
use durkenzo_control::control::Progress;
use durkenzo_driver::Clock;
use std::fmt;
use std::sync::atomic::{AtomicBool, AtomicU64, Ordering};
use std::sync::{Arc, OnceLock};
use std::time::Instant;

/// A cluster of servers in one process.
pub struct Cluster {
    /// How the server runs.
    pub configuration: Configuration,
    /// Which servers requests reach.
    pub presence: Presence,
    /// How far servers' restarts have come.
    pub progress: Progress,
    /// How often each kind of change to a shard was made.
    pub changes_made: ChangesMade,
    /// How many shards this process began to move to even out servers.
    pub balance_moves: AtomicU64,
    /// The addresses from which wrong passwords came lately.
    pub guesses: Guesses,
    /// The positions of SCAN's cursors.
    pub cursors: Cursors,
    /// The storage of data.
    pub storage: Storage,
    /// When the server started.
    pub started: Instant,
    clock: Clock,
    inlets: OnceLock<Box<[Arc<Inlet>]>>,
    changes: AtomicU64,
    leaves: AtomicBool,
    stops: AtomicBool,
    /// Whether connections may still be brought to threads.
    accepts: AtomicBool,
    /// Whether a thread polls for events without sleeping.
    polls: AtomicBool,
}

impl Cluster {
    /// Makes a cluster whose data lies there.
    pub fn new(configuration: Configuration, storage: Storage) -> Cluster {
        Cluster::by(configuration, storage, Clock::default())
    }

    /// Makes the same by this clock.
    pub fn by(configuration: Configuration, storage: Storage, clock: Clock) -> Cluster {
        let cursors = match &storage {
            Storage::Memory(_) | Storage::Folder(_) => Cursors::default(),
            Storage::Etcd(_) => Cursors::among_others(),
        };
        Cluster {
            presence: Presence::new(Membership::of(&configuration)),
            progress: Progress::default(),
            changes_made: ChangesMade::default(),
            balance_moves: AtomicU64::new(0),
            guesses: Guesses::default(),
            cursors,
            storage,
            started: clock.now(),
            clock,
            inlets: OnceLock::new(),
            changes: AtomicU64::new(0),
            leaves: AtomicBool::new(false),
            stops: AtomicBool::new(false),
            accepts: AtomicBool::new(false),
            polls: AtomicBool::new(false),
            configuration,
        }
    }

    /// Returns a cluster whose data lies in the memory of this process.
    ///
    /// # Errors
    ///
    /// `NoMemory`, or the rule that the settings break.
    pub fn in_memory(configuration: Configuration) -> Result<Cluster, BoardFault> {
        let memory = Arc::new(InMemory::new(&configuration)?);
        Ok(Cluster::new(configuration, Storage::Memory(memory)))
    }

    /// Returns how the server runs, in lines for an operator.
    pub fn settings_lines(&self) -> Vec<String> {
        let configuration = &self.configuration;
        vec![
            format!("servers {}", self.presence.servers()),
            format!("shards {}", self.shards()),
            format!("keys by {}", configuration.rule.name()),
            format!("restarts at once {}", self.presence.restarts()),
            format!("ceiling {}", configuration.ceiling),
            format!("wait {} ms", configuration.wait.as_millis()),
            format!("limits {}", configuration.limits()),
            format!("data {}", self.storage.description()),
        ]
    }

    /// Adopts these settings, which lie in the store that several processes share.
    pub fn go_by(&self, settings: &[u8]) {
        let read = Membership::of_stored(settings);
        match (read, self.storage.peers()) {
            (Ok(membership), Some(peers)) => {
                let (own, servers) = (peers.member().server(), membership.servers);
                peers.go_by(settings, servers);
                self.presence.go_by(membership);
                self.note_change();
                if own > servers {
                    tracing::error!("server {own} was taken out: there are servers 1 to {servers}");
                    self.stop();
                }
            }
            (Ok(_), None) => {}
            (Err(fault), _) => tracing::warn!(%fault, "the settings in force aren't read"),
        }
    }

    /// Returns this moment by the clock of the process.
    pub fn now(&self) -> Instant {
        self.clock.now()
    }

    /// Returns the number of shards.
    pub fn shards(&self) -> u16 {
        self.configuration.rule.shards()
    }

    /// Returns whether one more client may connect. If each client must first log in, the clients that have logged in
    /// must leave a place. Otherwise all clients together must leave a place.
    pub fn takes_client(&self) -> bool {
        let open: u64 = self.inlets().iter().map(|it| it.stats().open.get()).sum();
        match self.configuration.safety.is_guarded() {
            true => self.known_clients() < self.configuration.most_clients,
            false => (open as usize) < self.configuration.most_clients,
        }
    }

    /// Returns how many clients have logged in, or needn't.
    pub fn known_clients(&self) -> usize {
        self.inlets().iter().map(|it| it.known()).sum()
    }

    /// Gives the cluster its threads, once.
    pub fn set_inlets(&self, inlets: Box<[Arc<Inlet>]>) {
        // A second call changes nothing.
        let _ = self.inlets.set(inlets);
    }

    /// Returns the inlets of the threads that own connections.
    pub fn inlets(&self) -> &[Arc<Inlet>] {
        self.inlets.get().map_or(&[], |it| it)
    }

    /// Has all threads look again at waiting commands, because a shard or a server has changed.
    pub fn note_change(&self) {
        self.changes.fetch_add(1, Ordering::AcqRel);
        self.wake();
    }

    /// Returns how many changes there were that may let waiting commands go on.
    pub fn changes(&self) -> u64 {
        self.changes.load(Ordering::Acquire)
    }

    /// Returns whether the thread may poll for events without sleeping. One thread at a time does: more would take
    /// processors from clients.
    pub fn begin_to_poll(&self) -> bool {
        !self.polls.swap(true, Ordering::AcqRel)
    }

    /// Notes that the thread has stopped polling.
    pub fn end_to_poll(&self) {
        self.polls.store(false, Ordering::Release);
    }

    /// Notes that connections may be given to threads from now on, until [`Cluster::end_to_accept`].
    pub fn begin_to_accept(&self) {
        self.accepts.store(true, Ordering::Release);
    }

    /// Notes that no more connections are given to threads. If a thread sees this note, it also sees every connection
    /// that was given to it before.
    pub fn end_to_accept(&self) {
        self.accepts.store(false, Ordering::Release);
    }

    /// Returns whether connections may still be given to threads.
    pub fn is_accepting(&self) -> bool {
        self.accepts.load(Ordering::Acquire)
    }

    /// Notes that the process gives its shards away, and then ends.
    pub fn leave(&self) {
        self.leaves.store(true, Ordering::Release);
    }

    /// Returns whether clients should go elsewhere, because the process is about to end.
    pub fn is_leaving(&self) -> bool {
        self.leaves.load(Ordering::Acquire) || self.is_stopping()
    }

    /// Has all threads end.
    pub fn stop(&self) {
        self.stops.store(true, Ordering::Release);
        self.inlets().iter().for_each(|it| it.wake_for_stop());
    }

    /// Returns whether threads must end.
    pub fn is_stopping(&self) -> bool {
        self.stops.load(Ordering::Acquire)
    }

    fn wake(&self) {
        for inlet in self.inlets() {
            inlet.wake();
        }
    }
}

#[cfg(test)]
impl Cluster {
    /// Returns the board of a cluster whose data lies in memory.
    pub(crate) fn board(&self) -> durkenzo::Board<crate::body::BoxedBody> {
        match &self.storage {
            Storage::Memory(memory) => memory.board(),
            Storage::Folder(_) | Storage::Etcd(_) => panic!("there is no board over a store"),
        }
    }
}

impl fmt::Debug for Cluster {
    fn fmt(&self, f: &mut fmt::Formatter<'_>) -> fmt::Result {
        f.debug_struct("Cluster")
            .field("configuration", &self.configuration)
            .finish_non_exhaustive()
    }
}
